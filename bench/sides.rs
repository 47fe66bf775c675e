//! The three sides, each behind the same functions: the library through its C functions, and the plain
//! planner with either way to list the lines.

use crate::hire;
use crate::plain::{self, ADDING, BY_BOUNDS, CAPPED_WORDS, Listing, MOST, NoPlan};
use std::hint::black_box;

/// 0 or the refusal; then planning's deviation, steps, selections, count, byte of spare triggers and words of
/// a line; or the kept table's deviation, steps, selections and panels, and each panel's byte and number of
/// bits; or the count, the latest times and the words of a line; or how many bytes a made sheet has and the
/// next state; 0 where there is nothing.
#[derive(Debug, PartialEq, Eq)]
pub struct Answer {
    pub code: u32,
    pub words: [i64; WORDS],
}

/// The most words of an answer: the kept table's.
const WORDS: usize = 4 + 2 * MOST;

/// What is done with a sheet and a lent space.
pub type Work = fn(&[u8], &mut [i32]) -> Answer;

/// What a side does; none where it would do the same as the side before.
pub struct Side {
    pub name: &'static str,
    pub plan: Work,
    /// The kept table, which leaves the space alone.
    pub kept: Option<Work>,
    /// The latest times that are no later than 1 for every trigger.
    pub latest: Work,
    /// Request 6's sheet of six by six from a state, whose bytes stand in the place of a sheet; the space is
    /// left alone.
    pub make: Option<Work>,
}

/// The library, and plain Rust by bounds and adding panels.
pub const SIDES: [Side; 3] = [
    Side {
        name: "library",
        plan: by_library,
        kept: Some(kept_by_library),
        latest: latest_by_library,
        make: Some(made_by_library),
    },
    Side {
        name: "bounds",
        plan: |sheet, space| by_plain(sheet, space, BY_BOUNDS),
        kept: Some(kept_by_plain),
        latest: |sheet, space| latest_by_plain(sheet, space, BY_BOUNDS),
        make: Some(made_by_plain),
    },
    Side {
        name: "adding",
        plan: |sheet, space| by_plain(sheet, space, ADDING),
        kept: None,
        latest: |sheet, space| latest_by_plain(sheet, space, ADDING),
        make: None,
    },
];

/// Which of its works a side is to do.
pub type Task = fn(&Side) -> Option<Work>;
pub const PLAN: Task = |side| Some(side.plan);
pub const KEPT: Task = |side| side.kept;
pub const LATEST: Task = |side| Some(side.latest);
pub const MADE: Task = |side| side.make;

/// The works of the sides that do the task, the library's first.
pub fn works(task: Task) -> Vec<Work> {
    SIDES.iter().filter_map(task).collect()
}

/// Words lent to each plan: the space of the planning program, 2,000 lines with caps.
pub const SPACE: usize = 2000 * CAPPED_WORDS;

/// The times that are given where the latest are asked for, as many of them as there are triggers. An
/// answer's words are 0 before, so that a spare trigger's 1 has been handed back.
const GIVEN: [i64; MOST] = [1; MOST];

/// The size of the sheets of request 6 that are made, and bytes that hold any of them: there are at most 510,
/// with five for each number.
pub const LARGEST: [usize; 2] = [MOST; 2];
pub const HIRED_BYTES: usize = 512;

unsafe extern "C" {
    fn tuzhelar_plan(
        sheet: *const u8,
        sheet_len: usize,
        space: *mut i32,
        space_len: usize,
        answer: *mut i64,
        answer_len: usize,
    ) -> u32;
    fn tuzhelar_kept(
        sheet: *const u8,
        sheet_len: usize,
        answer: *mut i64,
        answer_len: usize,
    ) -> u32;
    fn tuzhelar_latest(
        sheet: *const u8,
        sheet_len: usize,
        times: *const i64,
        times_len: usize,
        space: *mut i32,
        space_len: usize,
        answer: *mut i64,
        answer_len: usize,
    ) -> u32;
    fn tuzhelar_hire(
        panels: usize,
        triggers: usize,
        state: u32,
        bytes: *mut u8,
        bytes_len: usize,
        answer: *mut i64,
        answer_len: usize,
    ) -> u32;
}

fn by_library(sheet: &[u8], space: &mut [i32]) -> Answer {
    let mut words = [0; WORDS];
    // SAFETY: each pointer goes with the length of the slice it comes from, and no slice overlaps
    // another.
    let code = unsafe {
        tuzhelar_plan(
            sheet.as_ptr(),
            sheet.len(),
            space.as_mut_ptr(),
            space.len(),
            words.as_mut_ptr(),
            words.len(),
        )
    };
    Answer { code, words }
}

fn kept_by_library(sheet: &[u8], _: &mut [i32]) -> Answer {
    let mut words = [0; WORDS];
    // SAFETY: as in `by_library`.
    let code =
        unsafe { tuzhelar_kept(sheet.as_ptr(), sheet.len(), words.as_mut_ptr(), words.len()) };
    Answer { code, words }
}

fn latest_by_library(sheet: &[u8], space: &mut [i32]) -> Answer {
    let given = &GIVEN[..triggers(sheet)];
    let mut words = [0; WORDS];
    // SAFETY: as in `by_library`; the times are only read.
    let code = unsafe {
        tuzhelar_latest(
            sheet.as_ptr(),
            sheet.len(),
            given.as_ptr(),
            given.len(),
            space.as_mut_ptr(),
            space.len(),
            words.as_mut_ptr(),
            words.len(),
        )
    };
    Answer { code, words }
}

/// The library's generator of sheets, for any size.
pub fn hired_by_library([m, n]: [usize; 2], state: u32, bytes: &mut [u8]) -> Answer {
    let mut words = [0; WORDS];
    // SAFETY: as in `by_library`.
    let code = unsafe {
        tuzhelar_hire(
            m,
            n,
            state,
            bytes.as_mut_ptr(),
            bytes.len(),
            words.as_mut_ptr(),
            words.len(),
        )
    };
    Answer { code, words }
}

fn made_by_library(state: &[u8], _: &mut [i32]) -> Answer {
    hired_by_library(LARGEST, state_of(state), &mut [0; HIRED_BYTES])
}

fn state_of(bytes: &[u8]) -> u32 {
    u32::from_ne_bytes(bytes.try_into().expect("a state has four bytes"))
}

/// The number of triggers of a good sheet: that of the second line behind the one of rule 2, if it begins with
/// that.
fn triggers(sheet: &[u8]) -> usize {
    const KEYS: usize = "panels=6\ntriggers=".len();
    let lines = sheet.strip_prefix(b"rule=2\n").unwrap_or(sheet);
    usize::from(lines[KEYS] - b'0')
}

fn by_plain(sheet: &[u8], space: &mut [i32], list: Listing) -> Answer {
    let mut words = [0; WORDS];
    match plain::plan(sheet, space, list) {
        Ok(plan) => {
            let numbers = [
                plan.deviation.into(),
                plan.steps.into(),
                plan.selections.into(),
            ];
            words[..3].copy_from_slice(&numbers);
            words[3] = plan.count as i64;
            words[4] = plan.spares.into();
            words[5] = plan.line_words as i64;
            Answer { code: 0, words }
        }
        Err(refused) => refusal(refused, [3, 5]),
    }
}

fn kept_by_plain(sheet: &[u8], _: &mut [i32]) -> Answer {
    let mut words = [0; WORDS];
    match plain::kept_table(sheet) {
        Ok(table) => {
            let numbers = [
                table.deviation.into(),
                table.steps.into(),
                table.selections.into(),
                table.panels as i64,
            ];
            words[..4].copy_from_slice(&numbers);
            for (i, pair) in words[4..].chunks_exact_mut(2).enumerate() {
                pair.copy_from_slice(&[table.kept[i].into(), table.counts[i].into()]);
            }
            Answer { code: 0, words }
        }
        Err(refused) => refusal(refused.into(), [0, 0]),
    }
}

fn latest_by_plain(sheet: &[u8], space: &mut [i32], list: Listing) -> Answer {
    let mut words = [0; WORDS];
    match plain::latest(sheet, &GIVEN, space, list) {
        Ok(latest) => {
            words[0] = latest.count as i64;
            words[1..=MOST].copy_from_slice(&latest.times);
            words[1 + MOST] = latest.line_words as i64;
            Answer { code: 0, words }
        }
        Err(refused) => refusal(refused, [0, 1 + MOST]),
    }
}

fn made_by_plain(state: &[u8], _: &mut [i32]) -> Answer {
    let mut words = [0; WORDS];
    let (text, next) = hire::sheet(LARGEST, state_of(state));
    // The text is made, though its length alone is looked at.
    words[0] = black_box(text).len() as i64;
    words[1] = next.into();
    Answer { code: 0, words }
}

/// The answer of a refusal, with 9's count and words of a line at their places.
fn refusal(refused: NoPlan, places: [usize; 2]) -> Answer {
    let mut words = [0; WORDS];
    let code = match refused {
        NoPlan::Refused(refusal) => refusal as u32,
        NoPlan::NoRoom { count, line_words } => {
            let [counted, wide] = places;
            words[counted] = count as i64;
            words[wide] = line_words as i64;
            9
        }
    };
    Answer { code, words }
}

/// What all sides answer, if it is the same and they leave the same words in a space that held the
/// same before.
pub fn agreed(task: Task, sheet: &[u8], words: usize) -> Option<Answer> {
    let mut answers = works(task).into_iter().map(|work| {
        let mut space: Vec<i32> = (0..words as i32).collect();
        (work(sheet, &mut space), space)
    });
    let library = answers.next()?;
    answers.all(|plain| plain == library).then_some(library.0)
}
