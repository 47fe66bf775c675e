//! The least bounds w of step 6, level by level and without the walk: a bound that another one is
//! nowhere above gives no line of its own.

use super::cue::{Cue, Level};
use super::entry::{Line, NO_LINE, nowhere_above};
use super::few::Few;

/// A level is applied to this many bounds at a time: each gives at most six, and all have room.
const AT_A_TIME: usize = 10;
type Bounds = Few<64>;

impl Bounds {
    /// Takes a bound in unless one is there that is nowhere above it; those nowhere below it leave.
    fn take_in(&mut self, bound: &Line) {
        if self.iter().any(|other| nowhere_above(other, bound)) {
            return;
        }
        let mut left = 0;
        for k in 0..self.len {
            let other = self.at[k];
            if !nowhere_above(bound, &other) {
                self.at[left] = other;
                left += 1;
            }
        }
        self.at[left] = *bound;
        self.len = left + 1;
    }

    /// What a level makes of some bounds.
    fn raised(bounds: &[Line], level: &Level) -> Bounds {
        let mut raised = Bounds::none();
        for bound in bounds {
            let mut kept = level.kept;
            while kept != 0 {
                let j = kept.trailing_zeros() as usize;
                let mut higher = *bound;
                higher[j] = higher[j].max(level.needs[j]);
                raised.take_in(&higher);
                kept &= kept - 1;
            }
        }
        raised
    }
}

/// Hands each least bound on.
pub fn each_bound(cue: &Cue, mut visit: impl FnMut(&Line)) {
    spread(&[NO_LINE], cue.levels(), &mut visit);
}

fn spread(bounds: &[Line], levels: &[Level], visit: &mut impl FnMut(&Line)) {
    match levels {
        [] => bounds.iter().for_each(visit),
        [level, below @ ..] => {
            for some in bounds.chunks(AT_A_TIME) {
                spread(&Bounds::raised(some, level), below, visit);
            }
        }
    }
}
