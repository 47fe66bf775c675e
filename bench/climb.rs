//! Looks for sheets that the library plans slowly: climbs from random and stored sheets by changes that make the plan
//! take longer. Run from the top of the repository:
//!
//! - `climb [--into DIR] [SECONDS [SEED]]` climbs for so long (600) from a seed (1), prints the slowest sheets of
//!   different climbs, the slowest first, and writes them to `climbed_1.txt` and so on in DIR (target/bench/climbed)
//!
//! Every random number comes from the seed. Which changes are kept is decided by times, though, and no two runs take
//! the same times: with one seed they begin alike, soon part, and end with other sheets.

mod climbing;
mod random;

use climbing::{Climbs, Clock, Measured, Starts};
use std::path::{Path, PathBuf};
use std::process::ExitCode;
use std::time::{Duration, Instant};

const USAGE: &str = "usage: climb [--into DIR] [SECONDS [SEED]]";
const SECONDS: u64 = 600;
const SEED: u64 = 1;

/// Where the stored sheets are and where the climbed ones go, from the top of the repository.
const SHEETS: &str = "tests/programs/sheets";
const INTO: &str = "target/bench/climbed";

/// What went wrong, where something did.
type Outcome<T> = Result<T, String>;

/// What is asked for.
struct Asked {
    into: PathBuf,
    time: Duration,
    seed: u64,
}

/// A sheet that is told of at the end.
struct Found {
    text: String,
    measured: Measured,
}

fn main() -> ExitCode {
    let arguments: Vec<String> = std::env::args().skip(1).collect();
    let arguments: Vec<&str> = arguments.iter().map(String::as_str).collect();
    match asked(&arguments).and_then(|asked| climb(&asked)) {
        Ok(()) => ExitCode::SUCCESS,
        Err(what) => {
            eprintln!("climb: {what}");
            ExitCode::FAILURE
        }
    }
}

fn asked(arguments: &[&str]) -> Outcome<Asked> {
    let (into, numbers) = match arguments {
        ["--into", into, numbers @ ..] | [numbers @ .., "--into", into] => (*into, numbers),
        numbers => (INTO, numbers),
    };
    let number = |at: usize, usual| match numbers.get(at) {
        Some(number) => number.parse().map_err(|_| USAGE),
        None => Ok(usual),
    };
    if numbers.len() > 2 {
        return Err(USAGE.into());
    }
    Ok(Asked {
        into: into.into(),
        time: Duration::from_secs(number(0, SECONDS)?),
        seed: number(1, SEED)?,
    })
}

fn climb(asked: &Asked) -> Outcome<()> {
    let starts = Starts::of_folder(Path::new(SHEETS)).map_err(|error| said(SHEETS, error))?;
    let mut climbs = Climbs::new(starts, asked.seed);
    climbs.run(Instant::now() + asked.time);
    let found = found(&climbs);
    write(&asked.into, &found).map_err(|error| said(&asked.into.to_string_lossy(), error))?;
    print(&climbs, &found);
    Ok(())
}

/// The kept sheets, timed by many calls, the slowest first.
fn found(climbs: &Climbs) -> Vec<Found> {
    let mut clock = Clock::new();
    let found = climbs.kept().map(|text| Found {
        text: text.into(),
        measured: clock.measured(text),
    });
    let mut found: Vec<Found> = found.collect();
    found.sort_by_key(|found| std::cmp::Reverse(found.measured.least));
    found
}

/// A table of the sheets, ready to be pasted into Markdown, then the sheets themselves.
fn print(climbs: &Climbs, found: &[Found]) {
    println!("{} tries in {} climbs.\n", climbs.tries, climbs.climbs);
    println!("| sheet | least time | median | selections | lines |");
    println!("|---|---|---|---|---|");
    let micros = |time: Duration| time.as_secs_f64() * 1e6;
    for (at, Found { measured, .. }) in found.iter().enumerate() {
        let (least, median) = (micros(measured.least), micros(measured.median));
        let Measured {
            selections, lines, ..
        } = measured;
        let name = name(at);
        println!("| {name} | {least:.1} µs | {median:.1} µs | {selections} | {lines} |");
    }
    for (at, Found { text, .. }) in found.iter().enumerate() {
        print!("\n{}\n{text}", name(at));
    }
}

fn write(folder: &Path, found: &[Found]) -> std::io::Result<()> {
    std::fs::create_dir_all(folder)?;
    for (at, Found { text, .. }) in found.iter().enumerate() {
        std::fs::write(folder.join(name(at)), text)?;
    }
    Ok(())
}

fn name(at: usize) -> String {
    format!("climbed_{}.txt", at + 1)
}

fn said(place: &str, error: std::io::Error) -> String {
    format!("{place}: {error}")
}
