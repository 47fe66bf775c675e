//! How long the library takes to plan a sheet. Each call is timed by itself, by the monotonic clock, and the least
//! time of some calls counts: what else the machine does makes a call longer, never shorter. A refused sheet counts as
//! planned in no time, so that it is never one of the slow ones.
//!
//! A sheet that is planned over and over takes less from call to call, since the processor learns its branches: the
//! first call can take twice as long as the tenth. So times are compared only if they are of as many calls in a row.

use std::time::{Duration, Instant};

/// Words lent to a plan: 2,000 lines with caps.
const SPACE: usize = 2000 * 8;
/// Calls in a row whose least time counts.
const CALLS: usize = 2;
/// Calls by which a sheet is measured at the end.
const MEASURING: usize = 2001;

unsafe extern "C" {
    fn tuzhelar_plan(
        sheet: *const u8,
        sheet_len: usize,
        space: *mut i32,
        space_len: usize,
        answer: *mut i64,
        answer_len: usize,
    ) -> u32;
}

/// The lent space, the same for all plans.
pub struct Clock {
    space: Vec<i32>,
}

/// What is told of a sheet at the end.
pub struct Measured {
    pub least: Duration,
    pub median: Duration,
    pub selections: i64,
    pub lines: i64,
}

/// Deviation, steps, selections and the number of lines of a plan.
type Numbers = [i64; 4];

impl Clock {
    pub fn new() -> Clock {
        Clock {
            space: vec![0; SPACE],
        }
    }

    pub fn least(&mut self, sheet: &str) -> Duration {
        let times = (0..CALLS).map(|_| self.call(sheet).0);
        times.min().unwrap_or_default()
    }

    /// Whether the least time is `bar` or more; no call is made after one that takes less.
    pub fn takes(&mut self, bar: Duration, sheet: &str) -> bool {
        (0..CALLS).all(|_| self.call(sheet).0 >= bar)
    }

    /// The least times of sheets that are timed in turns, so that a while in which the machine is slow is the same for
    /// all.
    pub fn in_turns(&mut self, turns: usize, sheets: &[&str]) -> Vec<Duration> {
        let mut times = vec![Duration::MAX; sheets.len()];
        for _ in 0..turns {
            for (least, sheet) in times.iter_mut().zip(sheets) {
                *least = self.least(sheet).min(*least);
            }
        }
        times
    }

    /// A sheet's times, by many calls in a row, and two of its numbers.
    pub fn measured(&mut self, sheet: &str) -> Measured {
        let mut calls: Vec<_> = (0..MEASURING).map(|_| self.call(sheet)).collect();
        calls.sort();
        let (median, _) = calls[MEASURING / 2];
        let (least, [_, _, selections, lines]) = calls[0];
        Measured {
            least,
            median,
            selections,
            lines,
        }
    }

    /// The time of one call, and what it answers.
    fn call(&mut self, sheet: &str) -> (Duration, Numbers) {
        let mut numbers = [0; 4];
        let start = Instant::now();
        // SAFETY: each pointer goes with the length of the slice it comes from, and no slice overlaps
        // another.
        let code = unsafe {
            tuzhelar_plan(
                sheet.as_ptr(),
                sheet.len(),
                self.space.as_mut_ptr(),
                self.space.len(),
                numbers.as_mut_ptr(),
                numbers.len(),
            )
        };
        let time = start.elapsed();
        match code {
            0 => (time, numbers),
            _ => (Duration::ZERO, numbers),
        }
    }
}
