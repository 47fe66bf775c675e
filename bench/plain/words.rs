//! Lines in the lent space.

use super::cue::Cue;
use super::entry::{Line, MOST, largest, present, sums};

/// A line's words in the lent space: the count of triggers and six components, and on a sheet with a last
/// line the cap.
pub const LINE_WORDS: usize = 1 + MOST;
pub const CAPPED_WORDS: usize = 2 + MOST;
/// The word of an absent component.
pub const ABSENT_WORD: i32 = i32::MIN;

/// How many words a line of the sheet takes.
pub fn line_words(cue: &Cue) -> usize {
    match cue.overruns {
        Some(_) => CAPPED_WORDS,
        None => LINE_WORDS,
    }
}

/// Writes lines at the front of the space and gives their count.
pub fn write(cue: &Cue, lines: &[Line], space: &mut [i32]) -> usize {
    for (line, words) in lines.iter().zip(space.chunks_exact_mut(line_words(cue))) {
        words[0] = cue.sheet.triggers as i32;
        for (word, &component) in words[1..LINE_WORDS].iter_mut().zip(line) {
            *word = if present(component) {
                component
            } else {
                ABSENT_WORD
            };
        }
        if let Some(overruns) = &cue.overruns {
            words[LINE_WORDS] = -largest(&sums(overruns, line));
        }
    }
    lines.len()
}
