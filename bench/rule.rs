//! Sheets of request 6 under rule 2.

use crate::chain;

/// The line with which such a sheet begins.
pub const RULE: &str = "rule=2\n";

/// The first sheets of the chain, each with the rule in the place of its marks. Every trigger of them has a lag, as
/// the rule asks.
pub fn chained(count: usize) -> Vec<Vec<u8>> {
    let sheets = chain::chained(count).into_iter();
    sheets
        .map(|sheet| by_spread(&String::from_utf8_lossy(&sheet)).into_bytes())
        .collect()
}

/// A sheet without its floors and due marks.
fn by_spread(sheet: &str) -> String {
    let is_mark = |line: &&str| ["floor=", "due="].iter().any(|key| line.starts_with(key));
    let lines = sheet.split_inclusive('\n').filter(|line| !is_mark(line));
    RULE.to_string() + &lines.collect::<String>()
}
