//! Document 02, No. 1, from the list: each line with the largest weight that lifts no component above
//! the given times and the times that the last moments allow, and the largest of these. A spare trigger has
//! no component and keeps its given time.

use super::cue::Cue;
use super::entry::{Line, MOST, present};
use super::words::{ABSENT_WORD, LINE_WORDS, line_words};
use super::{Listing, NoPlan};

/// The count of lines in the lent space and how many words each takes, and the latest times, 0 past the
/// number of triggers.
pub struct Latest {
    pub count: usize,
    pub line_words: usize,
    pub times: [i64; MOST],
}

/// The latest tightest times that are no later than those given, of which there are enough and none
/// beyond the limit.
pub fn latest(
    bytes: &[u8],
    given: &[i64; MOST],
    space: &mut [i32],
    list: Listing,
) -> Result<Latest, NoPlan> {
    let mut cue = Cue::NONE;
    cue.prepare(bytes)?;
    let count = list(&cue, space)?;
    let line_words = line_words(&cue);
    let mut times = [0; MOST];
    times[..cue.sheet.triggers].copy_from_slice(&given[..cue.sheet.triggers]);
    cue.in_use().for_each(|j| times[j] = i64::MIN);
    let within = match &cue.overruns {
        Some(overruns) => lowered(given, overruns),
        None => *given,
    };
    for words in space.chunks_exact(line_words).take(count) {
        raise(&mut times, &words[1..LINE_WORDS], &within);
    }
    Ok(Latest {
        count,
        line_words,
        times,
    })
}

/// The times, none of them later than lands in time.
fn lowered(given: &[i64; MOST], overruns: &Line) -> [i64; MOST] {
    std::array::from_fn(|j| match overruns[j] {
        overrun if present(overrun) => given[j].min(-i64::from(overrun)),
        _ => given[j],
    })
}

/// Raises the times to a line, as high as it may go.
fn raise(times: &mut [i64; MOST], line: &[i32], within: &[i64; MOST]) {
    let present = || line.iter().enumerate().filter(|&(_, &c)| c != ABSENT_WORD);
    let weight = present().map(|(j, &c)| within[j] - i64::from(c)).min();
    let weight = weight.expect("a line's greatest component is 0");
    for (j, &c) in present() {
        times[j] = times[j].max(weight + i64::from(c));
    }
}
