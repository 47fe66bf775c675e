//! A plain planner, written from documents 01 and 02: what the proved library is timed beside. It lists the
//! lines in either of two ways; all else is the same.

mod adding;
mod bounds;
mod cue;
mod entry;
mod extreme;
mod few;
mod item;
mod kept;
mod latest;
mod lines;
mod sheet;
mod tally;
mod walk;
mod words;

pub use entry::MOST;
pub use kept::kept_table;
pub use latest::latest;
pub use sheet::Refusal;
pub use words::{CAPPED_WORDS, LINE_WORDS};

use cue::Cue;

/// What planning returns beside the lines in the lent space.
pub struct Plan {
    pub deviation: i32,
    pub steps: u32,
    pub selections: u32,
    pub count: usize,
    /// The spare triggers, bit 0 for trigger 1.
    pub spares: u8,
    pub line_words: usize,
}

pub enum NoPlan {
    Refused(Refusal),
    /// Refusal 9, with the count of lines that do not fit, and how many words each takes.
    NoRoom {
        count: usize,
        line_words: usize,
    },
}

/// Steps 6 and 7: writes the list at the front of the space and gives its count, or the count that does not fit.
pub type Listing = fn(&Cue, &mut [i32]) -> Result<usize, NoPlan>;
pub const BY_BOUNDS: Listing = lines::list;
pub const ADDING: Listing = adding::list;

/// The plan of a sheet, its lines at the front of the lent space.
pub fn plan(bytes: &[u8], space: &mut [i32], list: Listing) -> Result<Plan, NoPlan> {
    let mut cue = Cue::NONE;
    cue.prepare(bytes)?;
    let counts = tally::count(cue.levels());
    let count = list(&cue, space)?;
    Ok(Plan {
        deviation: cue.deviation,
        steps: counts.steps,
        selections: counts.selections,
        count,
        spares: cue.spares,
        line_words: words::line_words(&cue),
    })
}

impl From<Refusal> for NoPlan {
    fn from(refusal: Refusal) -> NoPlan {
        NoPlan::Refused(refusal)
    }
}
