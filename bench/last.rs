//! Sheets of request 6 with a last line behind them.

use crate::chain;
use crate::land::{largest_sum, rows};
use crate::random::Random;

/// A panel's last moment is this or less behind its landing, with all triggers on their due marks.
const ROOM: usize = 1000;

/// The first sheets of the chain, each with a last line.
pub fn chained(count: usize) -> Vec<Vec<u8>> {
    chain::chained_with(count, last_line)
}

fn last_line(sheet: &str, random: &mut Random) -> String {
    let due: Vec<i64> = rows(sheet, "due=").concat().into_iter().flatten().collect();
    let mut moment = |lags: &Vec<_>| {
        let lands = largest_sum(lags, &due).expect("each panel has a lag");
        (lands + random.below(ROOM) as i64).to_string()
    };
    let moments: Vec<String> = rows(sheet, "lag=").iter().map(&mut moment).collect();
    format!("last={}\n", moments.join(","))
}
