//! Instructions instead of times: each side under callgrind, which counts the same at each run.

use crate::classes::Class;
use crate::programs::{PROGRAMS, on_whole_case};
use crate::sides::{SIDES, SPACE, Work};
use std::hint::black_box;
use std::io::{Error, Result};
use std::process::Command;

/// Plans a class's sheets once on one side, or prepares it and plans none: what callgrind runs.
pub fn plan_only(class: &Class, work: Work, planned: bool) {
    let mut space = vec![0; SPACE];
    let sheets = if planned { &class.sheets[..] } else { &[] };
    for sheet in sheets {
        black_box(work(black_box(sheet), &mut space));
    }
}

/// Instructions of one plan on each side: those of a run with all plans beyond those of a run with
/// none.
pub fn side_by_side(class: &Class) -> Result<Vec<f64>> {
    let sides = SIDES.iter().filter(|side| (class.task)(side).is_some());
    sides
        .map(|side| {
            let all = of_plans(class.key, side.name, "all")?;
            let none = of_plans(class.key, side.name, "none")?;
            Ok(all.saturating_sub(none) as f64 / class.sheets.len() as f64)
        })
        .collect()
}

/// Instructions of both programs for the whole case, from start to exit.
pub fn programs() -> Result<Vec<f64>> {
    let count = |program: &&str| {
        let mut command = callgrind();
        let count = collected(on_whole_case(command.arg(program))?)?;
        Ok(count as f64)
    };
    PROGRAMS.iter().map(count).collect()
}

fn of_plans(key: &str, side: &str, plans: &str) -> Result<u64> {
    let bench = std::env::current_exe()?;
    collected(callgrind().arg(bench).args(["--plans", side, key, plans]))
}

/// Functions are bound at the start, so that a first plan has no more to do than any other; memory is
/// filled and copied without string instructions, which callgrind counts byte by byte.
fn callgrind() -> Command {
    let mut command = Command::new("valgrind");
    command.env("LD_BIND_NOW", "1");
    command.env(
        "GLIBC_TUNABLES",
        "glibc.cpu.x86_rep_movsb_threshold=1000000000:glibc.cpu.x86_rep_stosb_threshold=1000000000",
    );
    command.args(["--tool=callgrind", "--callgrind-out-file=/dev/null"]);
    command
}

/// The number behind callgrind's `Collected :`.
fn collected(command: &mut Command) -> Result<u64> {
    let output = command.output()?;
    let said = String::from_utf8_lossy(&output.stderr);
    let number = said
        .rsplit_once("Collected : ")
        .and_then(|(_, rest)| rest.split_whitespace().next()?.parse().ok());
    number.ok_or_else(|| Error::other(format!("no count by callgrind: {said}")))
}
