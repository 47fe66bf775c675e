//! The lines of a list at the front of a lent space.

use crate::{LINE_WORDS, MOST};
use std::fmt;

/// The word of an absent component.
const ABSENT: i32 = i32::MIN;

/// One line of a list. Lines are ordered by component 1, then 2 and so on, absent lowest.
#[derive(Clone, Copy, Debug, PartialEq, Eq, PartialOrd, Ord, Hash)]
pub struct Line {
    triggers: usize,
    components: [Option<i32>; MOST],
    spares: u8,
    cap: Option<i32>,
}

impl Line {
    fn of(words: &[i32], spares: u8) -> Line {
        let mut components = [None; MOST];
        for (component, &word) in components.iter_mut().zip(&words[1..]) {
            *component = (word != ABSENT).then_some(word);
        }
        Line {
            triggers: words[0] as usize,
            components,
            spares,
            cap: words.get(LINE_WORDS).copied(),
        }
    }

    /// The number of triggers, 1 to 6, spare ones too.
    pub fn triggers(&self) -> usize {
        self.triggers
    }

    /// A component for each trigger, trigger 1 first; an absent one is `None`, and so is that of a spare
    /// trigger.
    pub fn components(&self) -> &[Option<i32>] {
        &self.components[..self.triggers]
    }

    /// The spare triggers, bit 0 for trigger 1: the same in all lines of a list.
    pub fn spares(&self) -> u8 {
        self.spares
    }

    /// The largest weight with which the line makes no panel land after its last moment; `None` on a sheet
    /// without a last line.
    pub fn cap(&self) -> Option<i32> {
        self.cap
    }
}

impl fmt::Display for Line {
    /// The components as the program `plan` writes them, such as `-1,0,-,s`: `-` is an absent one, `s` that
    /// of a spare trigger. The cap is no part of this.
    fn fmt(&self, f: &mut fmt::Formatter<'_>) -> fmt::Result {
        for (j, component) in self.components().iter().enumerate() {
            let comma = if j == 0 { "" } else { "," };
            match component {
                Some(number) => write!(f, "{comma}{number}")?,
                None if has(self.spares, j) => write!(f, "{comma}s")?,
                None => write!(f, "{comma}-")?,
            }
        }
        Ok(())
    }
}

/// Whether a set has the trigger at a place, from 0.
pub(crate) fn has(set: u8, place: usize) -> bool {
    (set >> place) & 1 == 1
}

/// A list by its words, of which each line takes seven or, with its cap, eight.
#[derive(Clone, Copy, Debug, PartialEq, Eq)]
pub(crate) struct List<'a> {
    words: &'a [i32],
    line_words: usize,
}

impl<'a> List<'a> {
    /// The list of so many lines at the front of a space.
    pub(crate) fn in_space(space: &'a [i32], count: usize, line_words: usize) -> List<'a> {
        List {
            words: &space[..line_words * count],
            line_words,
        }
    }

    pub(crate) fn lines(
        &self,
        spares: u8,
    ) -> impl ExactSizeIterator<Item = Line> + DoubleEndedIterator + use<'a> {
        self.words
            .chunks_exact(self.line_words)
            .map(move |line| Line::of(line, spares))
    }

    /// The sheet's number of triggers, spare ones too. No list is empty.
    pub(crate) fn triggers(&self) -> usize {
        self.words[0] as usize
    }

    /// The spare triggers: those that no line has a component for. Every other trigger has one in some line,
    /// since all tightest times are made of the lines.
    pub(crate) fn spares(&self) -> u8 {
        let lines = self.words.chunks_exact(self.line_words);
        (0..self.triggers())
            .filter(|j| lines.clone().all(|line| line[1 + j] == ABSENT))
            .fold(0, |set, j| set | (1 << j))
    }
}
