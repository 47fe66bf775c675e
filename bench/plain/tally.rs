//! Step 5: the fixings and the selections of the walk, counted without walking. What happens from a
//! level on hangs on the triggers left to the levels from there on, and on most ways down the same are
//! left as on another one before, so answers are remembered with those triggers.

use super::cue::Level;
use super::entry::{MOST, PLACES};

#[derive(Clone, Copy, Default)]
pub struct Counts {
    pub steps: u32,
    pub selections: u32,
}

/// The triggers left to all levels: a byte for each trigger, a bit for each level.
type Left = u64;
/// How many answers are remembered: a prime, so that what differs little seldom shares a place.
const REMEMBERED: usize = 67;
/// The first level, of every trigger.
const FIRST: Left = 0x0101_0101_0101_0101;

struct Tally {
    last: usize,
    /// For each level and trigger the later levels that the trigger serves as well.
    serves: [[i32; PLACES]; MOST],
    /// What was left to a level and to the later ones, and what happens from the level on with that, at
    /// the remainder of what was left. Each level has a trigger, so that what is left tells the level.
    seen: [(Left, Counts); REMEMBERED],
}

impl Tally {
    /// What happens from a level on, where these triggers are left to it and to the later ones.
    #[inline(always)]
    fn below(&mut self, level: usize, left: Left) -> Counts {
        if level == self.last {
            let selections = (left.wrapping_mul(FIRST) >> 56 >> level) as u32;
            return Counts {
                steps: selections,
                selections,
            };
        }
        let place = (left % REMEMBERED as Left) as usize;
        let (seen, counts) = self.seen[place];
        if seen == left {
            return counts;
        }
        let counts = self.tried(level, left);
        self.seen[place] = (left, counts);
        counts
    }

    /// As `below`, by trying each trigger of the level.
    fn tried(&mut self, level: usize, left: Left) -> Counts {
        let mut counts = Counts::default();
        let here = FIRST << level;
        let later = left & !here;
        let mut untried = left & here;
        while untried != 0 {
            let j = untried.trailing_zeros() as usize / 8;
            let below = self.below(level + 1, self.cut(level, j, later));
            counts.steps += 1 + below.steps;
            counts.selections += below.selections;
            untried &= untried - 1;
        }
        counts
    }

    /// What fixing trigger j at a level leaves to the later ones.
    fn cut(&self, level: usize, j: usize, later: Left) -> Left {
        let own = later >> (8 * j) & self.serves[level][j] as Left;
        later & !(own * FIRST) | own << (8 * j)
    }
}

/// A set of triggers, bit by bit, as what is left to the first level.
fn of_level(set: u8) -> Left {
    /// Takes bit j from place j to place 8 j, among others.
    const SPREAD: Left = 0x0002_0408_1020_4081;
    Left::from(set) * SPREAD & FIRST
}

/// The fixings and the selections of the whole walk.
pub fn count(levels: &[Level]) -> Counts {
    let mut tally = Tally {
        last: levels.len() - 1,
        serves: [[0; PLACES]; MOST],
        seen: [(0, Counts::default()); REMEMBERED],
    };
    let mut left = 0;
    for (i, level) in levels.iter().enumerate() {
        left |= of_level(level.kept) << i;
        for (k, later) in levels.iter().enumerate().skip(i + 1) {
            for (j, serves) in tally.serves[i].iter_mut().enumerate() {
                *serves |= i32::from(level.gains[j] <= later.gains[j]) << k;
            }
        }
    }
    tally.below(0, left)
}
