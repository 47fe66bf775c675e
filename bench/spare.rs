//! Sheets of request 6 in which two triggers are idle.

use crate::chain;
use crate::random::Random;

/// The first sheets of the chain, each without lags and rules for two triggers. The first trigger, which
/// reaches every panel, is none of them.
pub fn chained(count: usize) -> Vec<Vec<u8>> {
    let mut random = Random { state: 1 };
    let sheets = chain::chained(count).into_iter();
    sheets
        .map(|sheet| {
            let one = 1 + random.below(5);
            let other = 1 + (one + random.below(4)) % 5;
            without(&String::from_utf8_lossy(&sheet), [one, other]).into_bytes()
        })
        .collect()
}

/// A sheet without the lags and the after entries of some triggers.
fn without(sheet: &str, idle: [usize; 2]) -> String {
    let mut row = 0;
    let mut text = String::new();
    for line in sheet.lines() {
        let (key, items) = line.split_once('=').expect("a line has a key");
        let of_idle = key == "after" && idle.contains(&row);
        row += usize::from(key == "after");
        let taken = |j: usize| of_idle || ["lag", "after"].contains(&key) && idle.contains(&j);
        let item = |(j, item)| if taken(j) { "-" } else { item };
        let items: Vec<&str> = items.split(',').enumerate().map(item).collect();
        text += &format!("{key}={}\n", items.join(","));
    }
    text
}
