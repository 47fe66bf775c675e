//! The planning program beside which `plan` is timed: a sheet on standard input, its plan on
//! standard output.

// The kept table, the latest times and the second way to list the lines are the benchmark's alone.
#[allow(dead_code, unused_imports)]
mod plain;
mod text;

use plain::{NoPlan, Plan};
use std::io::{Read, Write, stdin, stdout};

/// One byte more than a sheet may have is enough to refuse it.
const MOST_BYTES: u64 = 2049;
/// "The program lends space for 2,000 lines."
const LINES: usize = 2000;

fn main() -> std::io::Result<()> {
    let mut sheet = Vec::new();
    stdin().take(MOST_BYTES).read_to_end(&mut sheet)?;
    let mut space = [0; LINES * plain::CAPPED_WORDS];
    let answer = plain::plan(&sheet, &mut space, plain::BY_BOUNDS).and_then(within_lines);
    stdout().write_all(text::answer(&answer, &space).as_bytes())
}

/// Lines without caps are smaller, and there is room for no more of them.
fn within_lines(plan: Plan) -> Result<Plan, NoPlan> {
    let Plan {
        count, line_words, ..
    } = plan;
    match count {
        0..=LINES => Ok(plan),
        _ => Err(NoPlan::NoRoom { count, line_words }),
    }
}
