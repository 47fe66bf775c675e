//! Sheets of request 6 with land lines behind them, such that the order can be kept.

use crate::chain;
use crate::random::Random;

type Table = Vec<Vec<Option<i64>>>;

/// One land entry in so many is present.
const SPREAD: usize = 4;
/// A land rule leaves less room than this, at the earliest times that keep the after rules.
const ROOM: usize = 1000;

/// The first sheets of the chain, each with six land lines.
pub fn chained(count: usize) -> Vec<Vec<u8>> {
    chain::chained_with(count, land_lines)
}

/// Land lines that the earliest times keep: an entry c(i,j) is at most x(i) − y(j).
fn land_lines(sheet: &str, random: &mut Random) -> String {
    let times = earliest(&rows(sheet, "after="));
    let lags = rows(sheet, "lag=");
    let landings = lags.iter().map(|row| largest_sum(row, &times));
    let landings: Vec<i64> = landings.map(|y| y.expect("each panel has a lag")).collect();
    let mut item = |most: i64| match random.below(SPREAD) {
        0 => (most - random.below(ROOM) as i64).to_string(),
        _ => "-".into(),
    };
    let line = |time: &i64| {
        let items: Vec<String> = landings.iter().map(|y| item(time - y)).collect();
        format!("land={}\n", items.join(","))
    };
    times.iter().map(line).collect()
}

/// The rows of a table, from the lines with its key.
pub fn rows(sheet: &str, key: &str) -> Table {
    let lines = sheet.lines().filter_map(|line| line.strip_prefix(key));
    let entries = |items: &str| items.split(',').map(|item| item.parse().ok()).collect();
    lines.map(entries).collect()
}

/// The earliest times from 0 on that keep the after rules, each of which is for an earlier trigger.
fn earliest(after: &Table) -> Vec<i64> {
    let mut times = Vec::new();
    for row in after {
        times.push(largest_sum(row, &times).unwrap_or(0).max(0));
    }
    times
}

/// The largest of a row's entries, each with its time added.
pub fn largest_sum(row: &[Option<i64>], times: &[i64]) -> Option<i64> {
    let sums = row.iter().zip(times);
    sums.filter_map(|(entry, time)| entry.map(|entry| entry + time))
        .max()
}
