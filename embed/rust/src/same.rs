//! What comparing two sheets gives: which of three they are, and the lists in the lent spaces.

use crate::list::{Line, List};
use crate::refusal::Refusal;
use std::error::Error;
use std::fmt;

/// So much more is the number of a refusal of the second sheet.
const SECOND: u32 = 200;

/// How the tightest timings of two sheets stand to one another, last moments left out.
#[derive(Clone, Copy, Debug, PartialEq, Eq, Hash)]
pub enum Likeness {
    /// Every timing is tightest on both sheets or on neither.
    Same,
    /// Some timing is tightest on one of the sheets only.
    Different,
    /// The sheets have different numbers of triggers, or not the same ones are spare. Of timings this says
    /// nothing.
    Unlike,
}

/// Two sheets compared. Their lists stand in the spaces that were lent, which stay borrowed as long as this
/// is used.
#[derive(Clone, Copy, Debug, PartialEq, Eq)]
pub struct Compared<'a> {
    /// How they stand to one another.
    pub likeness: Likeness,
    pub(crate) left: List<'a>,
    pub(crate) right: List<'a>,
}

impl<'a> Compared<'a> {
    /// Whether every timing is tightest on both sheets or on neither.
    pub fn same(&self) -> bool {
        self.likeness == Likeness::Same
    }

    /// The lines of the first sheet, in their order.
    pub fn first_lines(
        &self,
    ) -> impl ExactSizeIterator<Item = Line> + DoubleEndedIterator + use<'a> {
        self.left.lines(self.left.spares())
    }

    /// The lines of the second sheet, in their order.
    pub fn second_lines(
        &self,
    ) -> impl ExactSizeIterator<Item = Line> + DoubleEndedIterator + use<'a> {
        self.right.lines(self.right.spares())
    }
}

/// Why two sheets were not compared: planning refuses the first, or the second and not the first. It has
/// changed no lent word.
#[derive(Clone, Copy, Debug, PartialEq, Eq, Hash)]
pub enum SheetRefusal {
    /// The first sheet is refused; [`Refusal::Space`] is about the space lent for its list.
    First(Refusal),
    /// The second sheet is refused, and the first is not.
    Second(Refusal),
}

impl SheetRefusal {
    /// The number that stands for this refusal in C: 1 to 9 or 14, and 200 more for the second sheet.
    pub fn number(self) -> u32 {
        match self {
            SheetRefusal::First(refusal) => refusal.number(),
            SheetRefusal::Second(refusal) => SECOND + refusal.number(),
        }
    }

    /// The refusal of a number that the library returned, with the counts that come with 9 and 209 and the
    /// words that a line then takes.
    pub(crate) fn of(number: u32, counts: [usize; 2], line_words: [usize; 2]) -> SheetRefusal {
        if number > SECOND {
            SheetRefusal::Second(Refusal::of(number - SECOND, counts[1], line_words[1]))
        } else {
            SheetRefusal::First(Refusal::of(number, counts[0], line_words[0]))
        }
    }
}

impl fmt::Display for SheetRefusal {
    fn fmt(&self, f: &mut fmt::Formatter<'_>) -> fmt::Result {
        match self {
            SheetRefusal::First(refusal) => write!(f, "the first sheet: {refusal}"),
            SheetRefusal::Second(refusal) => write!(f, "the second sheet: {refusal}"),
        }
    }
}

impl Error for SheetRefusal {}
