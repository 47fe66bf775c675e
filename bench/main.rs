//! Times planning, the kept table, asking for the latest times and making sheets, by the proved library
//! beside a plain Rust planner, which lists the lines in two ways, and a plain generator. Run from the top of
//! the repository:
//!
//! - `bench [CLASS..]` writes a table of times, of all classes or of those named
//! - `bench --count [CLASS..]` writes a table of instructions
//! - `bench --check [SHEETS [SEED]]` compares all sides on random sheets (20,000 and 1)
//! - `bench --sheets COUNT DIR CLASS..` writes the first sheets of each class to CLASS_1.txt and so on in DIR
//! - `bench --alone FILE..` writes a line for each sheet: its file and the nanoseconds of a plan by the library
//! - `bench --plans SIDE CLASS all|none` plans a class once, or prepares it only; for `--count`

mod chain;
mod check;
mod classes;
mod counts;
mod hire;
mod land;
mod last;
mod plain;
mod programs;
mod random;
mod report;
mod rule;
mod sides;
mod spare;
mod times;

use classes::Class;
use report::Row;
use sides::{PLAN, SIDES, SPACE, Task};
use std::process::ExitCode;

const USAGE: &str = "usage: bench [CLASS..] | --count [CLASS..] | --check [SHEETS [SEED]] | --sheets COUNT DIR CLASS.. | --alone FILE.. | --plans library|bounds|adding CLASS all|none
classes: whole hire land spare last rule unpruned_distinct unpruned_after lines_times_selections lines72 bounds_spread climbed kept kept_after latest latest72 make programs";
/// What `--check` does by default.
const CHECKED: &str = "20000";
const SEED: &str = "1";

/// What went wrong, where something did.
type Outcome<T> = Result<T, String>;

fn main() -> ExitCode {
    let arguments: Vec<String> = std::env::args().skip(1).collect();
    let arguments: Vec<&str> = arguments.iter().map(String::as_str).collect();
    let outcome = match arguments[..] {
        ["--count", ref keys @ ..] => count(keys),
        ["--check"] => check(CHECKED, SEED),
        ["--check", sheets] => check(sheets, SEED),
        ["--check", sheets, seed] => check(sheets, seed),
        ["--sheets", count, folder, ref keys @ ..] => write_sheets(count, folder, keys),
        ["--alone", ref files @ ..] => time_alone(files),
        ["--plans", side, key, plans @ ("all" | "none")] => plan_only(side, key, plans == "all"),
        ref keys => time(keys),
    };
    match outcome {
        Ok(()) => ExitCode::SUCCESS,
        Err(what) => {
            eprintln!("bench: {what}");
            ExitCode::FAILURE
        }
    }
}

fn time(keys: &[&str]) -> Outcome<()> {
    let classes = agreed_classes(keys)?;
    let times = times::side_by_side(&classes);
    let mut rows: Vec<Row> = classes.iter().zip(times).map(Row::new).collect();
    if chosen(keys, programs::KEY) {
        rows.push(Row::programs(programs::side_by_side().map_err(said)?));
    }
    report::print_times(&rows);
    Ok(())
}

fn count(keys: &[&str]) -> Outcome<()> {
    let mut rows = Vec::new();
    for class in &agreed_classes(keys)? {
        rows.push((class.name, counts::side_by_side(class).map_err(said)?));
    }
    if chosen(keys, programs::KEY) {
        rows.push((programs::NAME, counts::programs().map_err(said)?));
    }
    report::print_counts(&rows);
    Ok(())
}

/// Without keys every class is chosen.
fn chosen(keys: &[&str], key: &str) -> bool {
    keys.is_empty() || keys.contains(&key)
}

/// Gives up unless both generators make the same sheets of request 6: what is planned is the library's.
fn generators_agree() -> Outcome<()> {
    match chain::difference() {
        None => Ok(()),
        Some(sheet) => Err(format!("the generators do not make the same: {sheet}")),
    }
}

/// The chosen classes, once all sides are known to accept and to agree on every sheet.
fn agreed_classes(keys: &[&str]) -> Outcome<Vec<Class>> {
    let known = |key: &&str| *key == programs::KEY || classes::known(key);
    if !keys.iter().all(known) {
        return Err(USAGE.into());
    }
    generators_agree()?;
    let classes = classes::classes(|key| chosen(keys, key))?;
    for class in &classes {
        for sheet in &class.sheets {
            if !accepted(class.task, sheet) {
                let text = String::from_utf8_lossy(sheet);
                return Err(format!("{}: not the same answer for\n{text}", class.name));
            }
        }
    }
    if !programs::agree().map_err(said)? {
        return Err("the two programs do not write the same".into());
    }
    let sheets: usize = classes.iter().map(|class| class.sheets.len()).sum();
    println!(
        "All sides give the same answer and leave the same words in the lent space: {sheets} sheets. The generators make the same sheets. The programs write the same.\n"
    );
    Ok(classes)
}

/// Whether all sides accept a sheet and agree on it.
fn accepted(task: Task, sheet: &[u8]) -> bool {
    sides::agreed(task, sheet, SPACE).is_some_and(|answer| answer.code == 0)
}

fn check(sheets: &str, seed: &str) -> Outcome<()> {
    let (Ok(sheets), Ok(seed)) = (sheets.parse(), seed.parse()) else {
        return Err(USAGE.into());
    };
    generators_agree()?;
    if check::Tally::default().run(sheets, seed)? {
        Ok(())
    } else {
        Err("the sides differ".into())
    }
}

fn write_sheets(count: &str, folder: &str, keys: &[&str]) -> Outcome<()> {
    let count = count.parse().map_err(|_| USAGE)?;
    if !keys.iter().all(|key| classes::known(key)) {
        return Err(USAGE.into());
    }
    for class in classes::classes(|key| keys.contains(&key))? {
        for (at, sheet) in class.sheets.iter().take(count).enumerate() {
            let file = format!("{folder}/{}_{}.txt", class.key, at + 1);
            std::fs::write(&file, sheet).map_err(|error| format!("{file}: {error}"))?;
        }
    }
    Ok(())
}

fn time_alone(files: &[&str]) -> Outcome<()> {
    let sheets = files.iter().map(|file| classes::stored(file));
    let sheets = sheets.collect::<Outcome<Vec<_>>>()?;
    for (file, sheet) in files.iter().zip(&sheets) {
        if !accepted(PLAN, sheet) {
            return Err(format!("{file}: no plan, or not the same by all sides"));
        }
    }
    for (file, seconds) in files.iter().zip(times::alone(&sheets)) {
        println!("{file} {:.0}", seconds * 1e9);
    }
    Ok(())
}

fn plan_only(side: &str, key: &str, planned: bool) -> Outcome<()> {
    let classes = classes::classes(|known| known == key)?;
    let side = SIDES.into_iter().find(|known| known.name == side);
    let ([class], Some(side)) = (&classes[..], side) else {
        return Err(USAGE.into());
    };
    let work = (class.task)(&side).ok_or(USAGE)?;
    counts::plan_only(class, work, planned);
    Ok(())
}

fn said(error: std::io::Error) -> String {
    error.to_string()
}
