//! The implementation under test, behind six safe functions:
//! - `plan(sheet: &[u8], space: &mut [i32]) -> PlanAnswer`
//! - `kept(sheet: &[u8]) -> KeptAnswer`
//! - `test(sheet: &[u8], times: &[i64]) -> u32`
//! - `latest(sheet: &[u8], given: &[i64], space: &mut [i32]) -> LatestAnswer`
//! - `same(first: &[u8], second: &[u8], left: &mut [i32], right: &mut [i32]) -> SameAnswer`
//! - `hire(asked: Asked, bytes: &mut [u8], answer: &mut [i64]) -> u32`
//!
//! Built with `--cfg linked` they call the static library, otherwise the reference itself.

#[cfg(linked)]
pub use crate::ffi::{hire, kept, latest, plan, same, test};
#[cfg(not(linked))]
pub use crate::itself::{hire, kept, latest, plan, same, test};

/// The six operations of one implementation.
pub struct Operations {
    pub plan: fn(&[u8], &mut [i32]) -> PlanAnswer,
    pub kept: fn(&[u8]) -> KeptAnswer,
    pub test: fn(&[u8], &[i64]) -> u32,
    pub latest: fn(&[u8], &[i64], &mut [i32]) -> LatestAnswer,
    pub same: fn(&[u8], &[u8], &mut [i32], &mut [i32]) -> SameAnswer,
    pub hire: fn(Asked, &mut [u8], &mut [i64]) -> u32,
}

/// The implementation under test.
pub const UNDER_TEST: Operations = Operations {
    plan,
    kept,
    test,
    latest,
    same,
    hire,
};

/// Which one that is.
pub const NAME: &str = if cfg!(linked) {
    "the static library"
} else {
    "the reference itself"
};

/// What every word of an answer holds before the call; no result is as low.
pub const UNTOUCHED: i64 = -7_777_777_777;

/// 0 or the refusal, and the answer's words after the call: deviation, steps, selections, count, the
/// byte of spare triggers, how many words a line takes and two words that stay.
#[derive(Debug, PartialEq, Eq)]
pub struct PlanAnswer {
    pub code: u32,
    pub words: [i64; 8],
}

/// 0 or the refusal, and the answer's words after the call: deviation, steps, selections, panels,
/// byte and count for each of six panels (0 and 0 for those that are not there) and two words that
/// stay.
#[derive(Debug, PartialEq, Eq)]
pub struct KeptAnswer {
    pub code: u32,
    pub words: [i64; 18],
}

/// 0 or the refusal, and the answer's words after the call: count, six times (0 for those that are not
/// there), how many words a line takes and two words that stay.
#[derive(Debug, PartialEq, Eq)]
pub struct LatestAnswer {
    pub code: u32,
    pub words: [i64; 10],
}

/// What the sheets are or the refusal, and the answer's words after the call: the two counts and two
/// words that stay.
#[derive(Debug, PartialEq, Eq)]
pub struct SameAnswer {
    pub code: u32,
    pub words: [i64; 6],
}

/// The sheet that `hire` is asked for. It gives 0 or the refusal; the answer's words, as many of them as are
/// lent, are the number of bytes written and the next state.
#[derive(Clone, Copy, Debug)]
pub struct Asked {
    /// Panels and triggers.
    pub size: [usize; 2],
    pub state: u32,
}

/// What `test` gives beside a refusal.
pub const YES: u32 = 100;
pub const NO: u32 = 101;

/// What `same` gives beside a refusal, and what is added to a refusal of the second sheet.
pub const SAME: u32 = 100;
pub const DIFFERENT: u32 = 101;
pub const UNLIKE: u32 = 102;
pub const SECOND: u32 = 200;
