//! Wrong programs, which the comparison must notice: each is the reference itself, to which a sheet is
//! handed as the wrong program takes it. Here those that are wrong about land lines.

use crate::itself;
use crate::reference::{self, Sheet};
use crate::sheets::Draft;
use crate::under_test::{KeptAnswer, LatestAnswer, Operations, PlanAnswer, SameAnswer};

/// What a wrong program takes a sheet for, or does otherwise in an operation.
pub trait Mistake {
    fn taken(sheet: &[u8]) -> Vec<u8> {
        sheet.to_vec()
    }

    fn plan(sheet: &[u8], space: &mut [i32]) -> PlanAnswer {
        itself::plan(&Self::taken(sheet), space)
    }

    fn kept(sheet: &[u8]) -> KeptAnswer {
        itself::kept(&Self::taken(sheet))
    }

    fn test(sheet: &[u8], times: &[i64]) -> u32 {
        itself::test(&Self::taken(sheet), times)
    }

    fn latest(sheet: &[u8], given: &[i64], space: &mut [i32]) -> LatestAnswer {
        itself::latest(&Self::taken(sheet), given, space)
    }

    fn same(first: &[u8], second: &[u8], left: &mut [i32], right: &mut [i32]) -> SameAnswer {
        itself::same(&Self::taken(first), &Self::taken(second), left, right)
    }
}

/// Every operation of a program that is wrong about sheets; it makes them right.
pub const fn operations<M: Mistake>() -> Operations {
    Operations {
        plan: M::plan,
        kept: M::kept,
        test: M::test,
        latest: M::latest,
        same: M::same,
        hire: itself::hire,
    }
}

/// Mistakes in what land lines mean.
pub const MEANING: [(&str, Operations); 5] = [
    ("land lines forgotten", operations::<Forgotten>()),
    ("land times lag over triggers", operations::<OverTriggers>()),
    ("land in the landings", operations::<InLandings>()),
    ("land in the order check alone", operations::<CheckAlone>()),
    ("land in the place of after", operations::<NoAfter>()),
];

/// Mistakes in which sheets have land lines.
pub const READING: [(&str, Operations); 1] =
    [("missing land lines as absent", operations::<Missing>())];

/// A good sheet changed; one that is refused stays as it is.
pub fn changed(sheet: &[u8], change: impl FnOnce(&mut Draft)) -> Vec<u8> {
    let Ok(read) = reference::read(sheet) else {
        return sheet.to_vec();
    };
    let mut draft = draft_of(read);
    change(&mut draft);
    draft.write()
}

fn draft_of(sheet: Sheet) -> Draft {
    Draft {
        by_spread: sheet.by_spread,
        lag: sheet.lag,
        floor: sheet.floor,
        due: sheet.due.into_iter().flatten().collect(),
        after: sheet.after,
        land: Some(sheet.land),
        last: sheet.last.map(|last| last.into_iter().flatten().collect()),
    }
}

struct Forgotten;
impl Mistake for Forgotten {
    fn taken(sheet: &[u8]) -> Vec<u8> {
        changed(sheet, |draft| draft.land = None)
    }
}

/// The sum of the product ends with the number of triggers.
struct OverTriggers;
impl Mistake for OverTriggers {
    fn taken(sheet: &[u8]) -> Vec<u8> {
        changed(sheet, |draft| {
            let n = draft.triggers();
            for row in draft.land.iter_mut().flatten() {
                row.iter_mut().skip(n).for_each(|c| *c = None);
            }
        })
    }
}

/// The order is right, and a panel lands no earlier than the triggers that wait for it allow.
struct InLandings;
impl Mistake for InLandings {
    fn taken(sheet: &[u8]) -> Vec<u8> {
        changed(sheet, |draft| {
            draft.after = draft.order();
            let land = draft.land.take().unwrap_or_default();
            for (j, lags) in draft.lag.iter_mut().enumerate() {
                let waits = land.iter().map(|row| row[j]);
                lags.iter_mut().zip(waits).for_each(|(a, c)| *a = c.max(*a));
            }
        })
    }
}

/// 8 is right, and M* is that of the after table.
struct CheckAlone;
impl Mistake for CheckAlone {
    fn taken(sheet: &[u8]) -> Vec<u8> {
        match reference::survey(sheet) {
            Ok(_) => Forgotten::taken(sheet),
            Err(_) => sheet.to_vec(),
        }
    }
}

/// Land times lag is the order table, where a land entry is present.
struct NoAfter;
impl Mistake for NoAfter {
    fn taken(sheet: &[u8]) -> Vec<u8> {
        changed(sheet, |draft| {
            if draft.land.iter().flatten().flatten().any(Option::is_some) {
                draft.after.iter_mut().flatten().for_each(|b| *b = None);
            }
        })
    }
}

/// Fewer land lines than triggers are accepted.
struct Missing;
impl Mistake for Missing {
    fn taken(sheet: &[u8]) -> Vec<u8> {
        let mut completed = sheet.to_vec();
        let last = sheet.split_inclusive(|&b| b == b'\n').next_back();
        let items = last.map_or(0, |line| line.split(|&b| b == b',').count());
        let line = format!("land={}\n", vec!["-"; items].join(","));
        for _ in 0..reference::SIZE {
            if reference::read(&completed).is_ok() {
                return completed;
            }
            completed.extend(line.as_bytes());
        }
        sheet.to_vec()
    }
}
