//! Step 5, walked step by step. What the fixings leave to a level is found when the walk comes to it,
//! so nothing has to be put back.

use super::cue::Level;
use super::tally::Counts;

/// The bits of a level's untried triggers in a word of them, and of its pick in a word of picks.
const SET: usize = 6;
const PICK: usize = 3;

/// The fixings and the selections of the whole walk.
pub fn count(levels: &[Level]) -> Counts {
    let last = levels.len() - 1;
    let mut counts = Counts::default();
    let mut level = 0;
    // The untried triggers down to the level, and the picks above it; the deepest stand lowest.
    let mut left = u64::from(levels[0].kept);
    let mut picks = 0;
    loop {
        let untried = left % (1 << SET);
        if untried == 0 {
            if level == 0 {
                return counts;
            }
            level -= 1;
            left >>= SET;
            picks >>= PICK;
            continue;
        }
        let j = untried.trailing_zeros() as usize;
        left &= left - 1;
        counts.steps += 1;
        if level == last {
            counts.selections += 1;
        } else {
            level += 1;
            picks = picks << PICK | j as u64;
            left = left << SET | u64::from(narrowed(levels, level, picks));
        }
    }
}

/// The pick so many levels above the deepest one.
fn pick(picks: u64, above: usize) -> usize {
    (picks >> (PICK * above)) as usize % (1 << PICK)
}

/// What the picks leave to a level: where one is left and serves as well, only itself.
fn narrowed(levels: &[Level], level: usize, picks: u64) -> u8 {
    let gains = &levels[level].gains;
    let mut left = levels[level].kept;
    for (i, fixed) in levels[..level].iter().enumerate() {
        let j = pick(picks, level - 1 - i);
        if left >> j & 1 == 1 && fixed.gains[j] <= gains[j] {
            left = 1 << j;
        }
    }
    left
}
