//! The tables, ready to be pasted into Markdown, and the verdict.

use crate::classes::Class;
use crate::programs::{self, RUNS};
use crate::times::{ROUND, ROUNDS, Times, ratio};

/// The library may take so many times as long as the faster plain Rust.
const MOST_TIMES: f64 = 1.5;
/// No sheet may take the library longer, in seconds.
const LONGEST: f64 = 100e-6;
/// The columns of the sides.
const COLUMNS: [&str; 3] = ["library", "plain Rust, by bounds", "plain Rust, adding"];

/// A class with the times of its sides.
pub struct Row {
    name: &'static str,
    sheets: usize,
    times: Times,
}

impl Row {
    pub fn new((class, times): (&Class, Times)) -> Row {
        Row {
            name: class.name,
            sheets: class.sheets.len(),
            times,
        }
    }

    pub fn programs(times: Times) -> Row {
        Row {
            name: programs::NAME,
            sheets: 1,
            times,
        }
    }

    fn ratio(&self) -> f64 {
        let [medians, quartiles] = self.times.ratios();
        medians.max(quartiles)
    }

    /// What the library takes for the sheet that takes it longest.
    fn longest(&self) -> f64 {
        self.times.longest[0]
    }

    fn print(&self) {
        self.print_pass(self.name, 1, &cells(&self.times.longest, shown));
        if self.sheets > 1 {
            let name = format!("{}, mean of one", self.name);
            self.print_pass(&name, self.sheets, &cells(&[], shown));
        }
    }

    /// A line with the times of one of so many parts of a pass.
    fn print_pass(&self, name: &str, parts: usize, longest: &str) {
        let part = |pass: f64| shown(pass / parts as f64);
        let medians = cells(&self.times.median, part);
        let [ratio, quiet] = self.times.ratios();
        println!("| {name} | {medians} | {ratio:.2} | {quiet:.2} | {longest} |");
    }
}

/// A cell for each side, empty where there is no number.
fn cells(numbers: &[f64], shown: impl Fn(f64) -> String) -> String {
    let mut cells = [const { String::new() }; COLUMNS.len()];
    for (cell, &number) in cells.iter_mut().zip(numbers) {
        *cell = shown(number);
    }
    cells.join(" | ")
}

/// Seconds with a unit and three digits that count.
fn shown(seconds: f64) -> String {
    let (value, unit) = if seconds < 1e-3 {
        (seconds * 1e6, "µs")
    } else {
        (seconds * 1e3, "ms")
    };
    let decimals = match value {
        100.0.. => 0,
        10.0.. => 1,
        _ => 2,
    };
    format!("{value:.decimals$} {unit}")
}

pub fn print_times(rows: &[Row]) {
    let longest = COLUMNS.map(|side| format!("longest, {side}")).join(" | ");
    println!(
        "| class | {} | ratio | of quartiles | {longest} |",
        COLUMNS.join(" | ")
    );
    println!("|---|---|---|---|---|---|---|---|---|");
    rows.iter().for_each(Row::print);
    println!();
    println!(
        "Medians of {ROUNDS} rounds a side, in turns, each of at least {} ms of processor time; the library's to that of the faster plain Rust, and so for the lower quartiles; longest: the greatest of the sheets' medians of {ROUNDS} single plans, by the wall clock. Programs: {RUNS} runs a side, by the wall clock; the longest of them.",
        ROUND.as_millis()
    );
    println!(
        "Each side has its own lent space of 2,000 lines, which is not cleared between plans; all sides prepare their own buffers anew for each plan."
    );
    print_verdict(rows);
}

/// The last line.
fn print_verdict(rows: &[Row]) {
    let most = rows.iter().max_by(|a, b| a.ratio().total_cmp(&b.ratio()));
    let (most_name, most) = most.map_or(("nothing", 0.0), |row| (row.name, row.ratio()));
    println!(
        "Every class at most {MOST_TIMES} times the faster plain Rust, by either ratio: {} (most: {most:.2}, {most_name}). Longer than {} by the library: {}.",
        if most <= MOST_TIMES { "yes" } else { "no" },
        shown(LONGEST),
        too_long(rows),
    );
}

/// The classes with a sheet that takes the library too long; the programs are no sheets.
fn too_long(rows: &[Row]) -> String {
    let sheets = rows.iter().filter(|row| row.name != programs::NAME);
    let long = sheets.filter(|row| row.longest() > LONGEST);
    let named = long.map(|row| format!("{} ({})", row.name, shown(row.longest())));
    let named: Vec<String> = named.collect();
    match &named[..] {
        [] => "nothing".into(),
        named => named.join(", "),
    }
}

/// Instructions of a plan by class.
pub fn print_counts(rows: &[(&str, Vec<f64>)]) {
    println!(
        "| instructions of a plan | {} | ratio |",
        COLUMNS.join(" | ")
    );
    println!("|---|---|---|---|---|");
    for (name, counts) in rows {
        let counted = cells(counts, |count| format!("{count:.0}"));
        println!("| {name} | {counted} | {:.2} |", ratio(counts));
    }
}
