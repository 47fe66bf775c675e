//! What an operation may refuse.

use std::error::Error;
use std::fmt;

/// Why an operation gave no result. A refusal has changed no lent byte or word.
///
/// Written by `{}`, it is a sentence that says what it means and what to look at.
#[derive(Clone, Copy, Debug, PartialEq, Eq, Hash)]
pub enum Refusal {
    /// 1: the sheet has more than 2,048 bytes.
    TooLong,
    /// 2: a line is missing, has the wrong key, number of items, numeral or line end, or is a size that
    /// is absent; or bytes follow the sheet's end. The first line is `rule=2` or none, and with it there are
    /// no lines `floor=` and `due=`; there is a land line for each trigger, or none at all, and behind these
    /// one line `last=` or none.
    Form,
    /// 3: a size is not 1 to 6.
    Size,
    /// 4: an entry is not −100,000 to 100,000.
    Range,
    /// 5: a due mark or a last moment is absent.
    NoDue,
    /// 6: a panel has no lag.
    NoLag,
    /// 7: no panel has a floor.
    NoFloor,
    /// 8: no timing keeps the order: all rules of the after and land lines.
    Order,
    /// 9: the list has more lines than the lent space holds.
    Space {
        /// The lines of the list.
        count: usize,
        /// The words to lend for them: [`LINE_WORDS`](crate::LINE_WORDS) for each, or
        /// [`CAPPED_WORDS`](crate::CAPPED_WORDS) on a sheet with a last line.
        words: usize,
    },
    /// 10: there are not as many times as triggers.
    Components,
    /// 11: a time is beyond ±1,000,000,000.
    Time,
    /// 12: a size of a sheet to make is not 1 to 6.
    HireSize,
    /// 13: a sheet to make is longer than the bytes lent. [`HIRE_BYTES`](crate::HIRE_BYTES) are always enough.
    SheetSpace,
    /// 14: the sheet follows rule 2, and a trigger that is not spare has no lag to any panel.
    NoTriggerLag,
}

impl Refusal {
    /// The number, 1 to 14, that stands for this refusal in C and in the programs' texts.
    pub fn number(self) -> u32 {
        match self {
            Refusal::TooLong => 1,
            Refusal::Form => 2,
            Refusal::Size => 3,
            Refusal::Range => 4,
            Refusal::NoDue => 5,
            Refusal::NoLag => 6,
            Refusal::NoFloor => 7,
            Refusal::Order => 8,
            Refusal::Space { .. } => 9,
            Refusal::Components => 10,
            Refusal::Time => 11,
            Refusal::HireSize => 12,
            Refusal::SheetSpace => 13,
            Refusal::NoTriggerLag => 14,
        }
    }

    /// The refusal of a number that the library returned, with what comes with 9: the count, and the words
    /// that a line takes.
    pub(crate) fn of(number: u32, count: usize, line_words: usize) -> Refusal {
        match number {
            1 => Refusal::TooLong,
            2 => Refusal::Form,
            3 => Refusal::Size,
            4 => Refusal::Range,
            5 => Refusal::NoDue,
            6 => Refusal::NoLag,
            7 => Refusal::NoFloor,
            8 => Refusal::Order,
            9 => Refusal::Space {
                count,
                words: line_words * count,
            },
            10 => Refusal::Components,
            11 => Refusal::Time,
            12 => Refusal::HireSize,
            13 => Refusal::SheetSpace,
            14 => Refusal::NoTriggerLag,
            _ => unreachable!("the contracts of the library have no refusal {number}"),
        }
    }
}

impl fmt::Display for Refusal {
    fn fmt(&self, f: &mut fmt::Formatter<'_>) -> fmt::Result {
        let sentence = match self {
            Refusal::TooLong => {
                "the sheet has more than 2,048 bytes; no good sheet has more than 1,133: \
                 look for text behind its end"
            }
            Refusal::Form => {
                "a line is missing or ill-formed, or bytes follow the sheet's end; the lines are rule=2 or \
                 none, panels=, triggers=, lag= for each panel, floor= and due= where there is no rule=2, \
                 after= for each trigger, then land= for each trigger or none, then one last= or none: \
                 look at their order, their keys, their numbers of items, numerals such as 05, -0 or +5, \
                 blanks, and the line end of each"
            }
            Refusal::Size => "the number of panels or of triggers is not 1 to 6",
            Refusal::Range => {
                "an entry is below -100,000 or above 100,000; look at the lag=, floor=, due=, after=, \
                 land= and last= lines"
            }
            Refusal::NoDue => {
                "a due mark or a last moment is absent; the due= line needs a number for each trigger, a \
                 last= line one for each panel"
            }
            Refusal::NoLag => {
                "a panel has no lag: no trigger reaches it; look for a lag line of minus signs alone"
            }
            Refusal::NoFloor => "no panel has a floor; at least one needs one",
            Refusal::Order => {
                "no times keep the order: rules of the after= and land= lines, these with the lags of \
                 their panels, form a circle that adds up to more than 0"
            }
            Refusal::Space { count, words } => {
                return write!(
                    f,
                    "the list has {count} lines, more than the lent space holds; lend {words} words"
                );
            }
            Refusal::Components => "there are not as many times as the sheet has triggers",
            Refusal::Time => "a time is below -1,000,000,000 or above 1,000,000,000",
            Refusal::HireSize => "the number of panels or of triggers asked for is not 1 to 6",
            Refusal::SheetSpace => {
                "the sheet is longer than the bytes lent for it; 1,133 bytes are always enough"
            }
            Refusal::NoTriggerLag => {
                "a trigger that is not spare has no lag, and under rule=2 each needs one; look at its place \
                 in the lag= lines, or take it out of the after= and land= lines"
            }
        };
        f.write_str(sentence)
    }
}

impl Error for Refusal {}
