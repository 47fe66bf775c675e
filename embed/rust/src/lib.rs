//! Tuzhelar, the proved planner for surtitle cues, behind safe functions.
//!
//! The six operations are proved, from the bytes of a sheet to the words written, and from a state to the
//! bytes of a sheet; this crate only calls them (`ffi`) and gives names to the words. Slices of any length
//! and content have an answer.
//!
//! `tools/library` writes the library that is linked; `build.rs` says where it is looked for.
//!
//! ```
//! let sheet = b"panels=2\ntriggers=2\nlag=2,0\nlag=4,1\nfloor=5,2\ndue=1,2\nafter=-,-\nafter=-,-\n";
//! let mut space = [0; 2000 * tuzhelar::LINE_WORDS];
//! let plan = tuzhelar::plan(sheet, &mut space)?;
//! assert_eq!(plan.deviation, 2);
//! assert_eq!(plan.lines().map(|line| line.to_string()).collect::<Vec<_>>(), ["-1,0", "0,-"]);
//!
//! // Times from the lines: one weight for each. All such times are tightest.
//! assert_eq!(plan.times(&[1, 0]), Some(vec![0, 1]));
//! assert_eq!(tuzhelar::test(sheet, &[0, 1]), Ok(true));
//!
//! // Times that were wished, and the latest tightest ones that are not later.
//! assert_eq!(tuzhelar::test(sheet, &[0, 2]), Ok(false));
//! assert_eq!(tuzhelar::latest(sheet, &[0, 2], &mut space)?.times(), [0, 1]);
//!
//! // Land lines make triggers wait for panels: here x(2) is at least −1 plus the landing of panel 1.
//! let waiting = [&sheet[..], b"land=-,-\nland=-1,-\n"].concat();
//! let plan = tuzhelar::plan(&waiting, &mut space)?;
//! assert_eq!(plan.lines().map(|line| line.to_string()).collect::<Vec<_>>(), ["-1,0"]);
//!
//! // A trigger that is wired but idle is spare: its due mark counts for nothing, and any time will do for it.
//! let idle = b"panels=1\ntriggers=3\nlag=0,-,0\nfloor=0\ndue=0,-7,3\nafter=-,-,-\nafter=-,-,-\nafter=-,-,-\n";
//! let plan = tuzhelar::plan(idle, &mut space)?;
//! assert_eq!((plan.deviation, plan.spares), (-3, 0b010));
//! assert_eq!(plan.lines().map(|line| line.to_string()).collect::<Vec<_>>(), ["-,s,0", "-3,s,0"]);
//! assert_eq!(tuzhelar::test(idle, &[-3, 99, 0]), Ok(true));
//! assert_eq!(tuzhelar::latest(idle, &[0, 99, 0], &mut space)?.times(), [-3, 99, 0]);
//!
//! // A last line gives each panel its last moment, and each line of the plan a cap for its weight.
//! let downbeat = [&sheet[..], b"last=6,6\n"].concat();
//! let plan = tuzhelar::plan(&downbeat, &mut space)?;
//! assert_eq!(plan.lines().map(|line| line.cap()).collect::<Vec<_>>(), [Some(3), Some(2)]);
//! assert_eq!(plan.times(&[3, 2]), Some(vec![2, 3]));
//! assert_eq!(tuzhelar::test(&downbeat, &[2, 3]), Ok(true));
//! assert_eq!(tuzhelar::test(&downbeat, &[3, 3]), Ok(false));
//! assert_eq!(tuzhelar::latest(&downbeat, &[5, 9], &mut space)?.times(), [2, 3]);
//!
//! // A sheet that begins with `rule=2` has no floors and due marks: its deviation is the spread of landings.
//! let spread = b"rule=2\npanels=2\ntriggers=2\nlag=2,0\nlag=4,1\nafter=-,-\nafter=-,-\n";
//! let plan = tuzhelar::plan(spread, &mut space)?;
//! assert_eq!(plan.deviation, 1);
//! assert_eq!(plan.lines().map(|line| line.to_string()).collect::<Vec<_>>(), ["-,0", "-3,0"]);
//!
//! // Whether the same times are tightest on another sheet, here the same with its panels exchanged.
//! let other = b"panels=2\ntriggers=2\nlag=4,1\nlag=2,0\nfloor=2,5\ndue=1,2\nafter=-,-\nafter=-,-\n";
//! let (mut left, mut right) = ([0; 20 * tuzhelar::LINE_WORDS], [0; 20 * tuzhelar::LINE_WORDS]);
//! assert!(tuzhelar::same(sheet, other, &mut left, &mut right)?.same());
//!
//! // A sheet to try, made from its sizes and a state. The next would be made from the state returned.
//! let mut bytes = [0; tuzhelar::HIRE_BYTES];
//! let hired = tuzhelar::hire(2, 2, 1, &mut bytes)?;
//! assert!(hired.sheet.starts_with(b"panels=2\ntriggers=2\nlag=-517,-\nlag=947,-74\nfloor=907,-611\n"));
//! assert_eq!(hired.state, 1_788_458_157);
//! assert_eq!(tuzhelar::plan(hired.sheet, &mut space)?.deviation, 1054);
//! # Ok::<(), Box<dyn std::error::Error>>(())
//! ```
#![deny(missing_docs, unsafe_code)]

mod ffi;
mod hire;
mod latest;
mod list;
mod plan;
mod refusal;
mod same;

use list::List;

pub use hire::{HIRE_BYTES, Hired, hire};
pub use latest::{Latest, latest};
pub use list::Line;
pub use plan::Plan;
pub use refusal::Refusal;
pub use same::{Compared, Likeness, SheetRefusal};

/// The most bytes of a sheet.
pub const SHEET_BYTES: usize = 2048;
/// The most panels, and the most triggers.
pub const MOST: usize = 6;
/// Words of the lent space that a line takes: its count of triggers and six components.
pub const LINE_WORDS: usize = 7;
/// Words that a line takes on a sheet with a last line: the same, and then its cap.
pub const CAPPED_WORDS: usize = 8;

/// The number that an operation returns for a result, a test for yes and no, a comparison for each likeness.
const DONE: u32 = 0;
const YES: u32 = 100;
const NO: u32 = 101;
const SAME: u32 = 100;
const DIFFERENT: u32 = 101;
const UNLIKE: u32 = 102;

/// Reads the sheet, works out the least deviation and lists the lines at the front of the space. The rest of
/// the space stays as it was.
///
/// A trigger is spare if it has no lag to any panel, no present after entry in its row or column, and no
/// present land entry in its row. At least one trigger is not.
///
/// A sheet with a last line gives each panel a last moment. Times are in time if no panel lands later than
/// that; each line then has a [cap](Line::cap). The rest of the plan is as without the last line.
///
/// A sheet that begins with `rule=2` has no lines `floor=` and `due=`. Its deviation is the spread of
/// landings, the latest less the earliest, which is never below 0: every floor counts as 0 there, and a
/// trigger's due mark as minus its largest lag. Each trigger that is not spare needs a lag.
///
/// # Errors
/// [`Refusal`] 1 to 7 or 14; then 8; then 9. The space is then as it was. It holds its length divided by
/// [`LINE_WORDS`], or by [`CAPPED_WORDS`] on a sheet with a last line, rounded down, lines. The program
/// `plan` lends 2,000 lines; the largest list seen has 72. Where they are too few, [`Refusal::Space`] says
/// how many there are.
pub fn plan<'a>(sheet: &[u8], space: &'a mut [i32]) -> Result<Plan<'a>, Refusal> {
    let mut answer = [0; 6];
    let number = ffi::plan(sheet, space, &mut answer);
    let [deviation, steps, selections, count, spares, line_words] = answer;
    let (count, line_words) = (count as usize, line_words as usize);
    if number != DONE {
        return Err(Refusal::of(number, count, line_words));
    }
    Ok(Plan {
        deviation,
        steps: steps as u64,
        selections: selections as u64,
        count,
        spares: spares as u8,
        list: List::in_space(space, count, line_words),
    })
}

/// The kept table and the walk's numbers.
#[derive(Clone, Copy, Debug, PartialEq, Eq)]
pub struct Kept {
    /// Δ, the least deviation.
    pub deviation: i64,
    /// The walk's fixings.
    pub steps: u64,
    /// The walk's selections.
    pub selections: u64,
    panels: usize,
    kept: [KeptPanel; MOST],
}

/// The kept triggers of one panel.
#[derive(Clone, Copy, Debug, Default, PartialEq, Eq, Hash)]
pub struct KeptPanel {
    /// Six bits, bit 0 for trigger 1. A panel without a floor keeps none, and a spare trigger is never kept.
    pub byte: u8,
    /// The number of bits set.
    pub count: u8,
}

impl Kept {
    /// What each panel keeps, in sheet order.
    pub fn panels(&self) -> &[KeptPanel] {
        &self.kept[..self.panels]
    }
}

/// Reads the sheet and gives the least deviation, the kept triggers of each panel and the walk's numbers.
///
/// # Errors
/// [`Refusal`] 1 to 7 or 14; then 8.
pub fn kept(sheet: &[u8]) -> Result<Kept, Refusal> {
    let mut answer = [0; 16];
    let number = ffi::kept(sheet, &mut answer);
    if number != DONE {
        return Err(Refusal::of(number, 0, 0));
    }
    let mut kept = [KeptPanel::default(); MOST];
    for (panel, words) in kept.iter_mut().zip(answer[4..].chunks_exact(2)) {
        *panel = KeptPanel {
            byte: words[0] as u8,
            count: words[1] as u8,
        };
    }
    Ok(Kept {
        deviation: answer[0],
        steps: answer[1] as u64,
        selections: answer[2] as u64,
        panels: answer[3] as usize,
        kept,
    })
}

/// Whether the times, one for each trigger, are tightest and in time: they keep the order, which is every
/// rule of the after and land lines, no times that do have a smaller deviation, and no panel lands after its
/// last moment, if the sheet has a last line. A spare trigger's time and due mark count for nothing.
///
/// # Errors
/// [`Refusal`] 1 to 7 or 14; then 10, there are not as many times as triggers; then 11, one is beyond
/// ±1,000,000,000; then 8.
pub fn test(sheet: &[u8], times: &[i64]) -> Result<bool, Refusal> {
    match ffi::test(sheet, times) {
        YES => Ok(true),
        NO => Ok(false),
        number => Err(Refusal::of(number, 0, 0)),
    }
}

/// Whether the same timings are tightest on two sheets, where they have as many triggers and the same are
/// spare. Each sheet's list is written at the front of its space, the first's in `left`, the second's in
/// `right`; the rest of each space stays as it was. Last moments and caps have no part in this: one sheet may
/// have a last line where the other has none, and one may follow rule 2 where the other has marks.
///
/// # Errors
/// [`SheetRefusal`]: the [`Refusal`] of the first sheet, as [`plan`] has it with the space `left`, or else of
/// the second with the space `right`; both spaces are then as they were.
pub fn same<'a>(
    first: &[u8],
    second: &[u8],
    left: &'a mut [i32],
    right: &'a mut [i32],
) -> Result<Compared<'a>, SheetRefusal> {
    let mut answer = [0; 4];
    let number = ffi::same(first, second, left, right, &mut answer);
    let [counts, words] = [[0, 1], [2, 3]].map(|two| two.map(|at| answer[at] as usize));
    let likeness = match number {
        SAME => Likeness::Same,
        DIFFERENT => Likeness::Different,
        UNLIKE => Likeness::Unlike,
        number => return Err(SheetRefusal::of(number, counts, words)),
    };
    Ok(Compared {
        likeness,
        left: List::in_space(left, counts[0], words[0]),
        right: List::in_space(right, counts[1], words[1]),
    })
}
