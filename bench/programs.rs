//! The planning programs, `plan` and the plain one, from start to exit.

use crate::classes::{WHOLE, path};
use crate::times::{Times, in_turn};
use std::fs::File;
use std::io::Result;
use std::process::{Command, Stdio};
use std::time::Instant;

/// The class that they are.
pub const KEY: &str = "programs";
pub const NAME: &str = "program, whole case, start to exit";
/// `plan` and the plain program, from the top of the repository.
pub const PROGRAMS: [&str; 2] = ["target/bin/plan", "target/bench/plan"];
/// Runs of each program.
pub const RUNS: usize = 301;

/// A program with the whole case on its standard input.
pub fn on_whole_case(program: &mut Command) -> Result<&mut Command> {
    Ok(program.stdin(File::open(path(WHOLE))?))
}

/// Whether both write the same for the whole case.
pub fn agree() -> Result<bool> {
    let [library, plain] = PROGRAMS.map(|program| {
        let mut command = Command::new(program);
        on_whole_case(&mut command)?.output()
    });
    let (library, plain) = (library?, plain?);
    Ok(library.status.success() && plain.status.success() && library.stdout == plain.stdout)
}

/// The times of both programs for the whole case; a round is a run.
pub fn side_by_side() -> Result<Times> {
    let mut both = PROGRAMS.map(|program| (program, Vec::new()));
    let mut failure = Ok(());
    for round in 0..RUNS {
        in_turn(&mut both, round, |(program, runs)| match run(program) {
            Ok(time) => runs.push(time),
            Err(error) => failure = Err(error),
        });
    }
    failure?;
    let runs = both.map(|(_, runs)| runs).to_vec();
    let longest = |runs: &Vec<f64>| runs.iter().copied().fold(0.0, f64::max);
    let longest = runs.iter().map(longest).collect();
    Ok(Times::new(runs, longest))
}

/// Seconds from before the program is started until its end is known.
fn run(program: &str) -> Result<f64> {
    let mut command = Command::new(program);
    on_whole_case(&mut command)?.stdout(Stdio::null());
    let start = Instant::now();
    command.status()?;
    Ok(start.elapsed().as_secs_f64())
}
