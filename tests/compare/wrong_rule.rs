//! Wrong programs that are wrong about rule 2.

use crate::itself;
use crate::reference::{self, CAPPED_WORDS, LONGEST_SHEET, SIZE};
use crate::rule::with_marks;
use crate::sheets::{Draft, RULE};
use crate::under_test::{DIFFERENT, LatestAnswer, Operations, SAME, SameAnswer, UNLIKE};
use crate::wrong::{Mistake, changed, operations};
use crate::wrong_last::with_lines;
use crate::wrong_spares::read;

/// Mistakes in what rule 2 means for a plan or a timing.
pub const MEANING: [(&str, Operations); 13] = [
    ("due marks of 0 under rule 2", operations::<NoDue>()),
    ("the largest lag of a panel", operations::<OfPanels>()),
    ("the smallest lag", operations::<Smallest>()),
    ("the last panel's lag", operations::<LastPanel>()),
    ("a lag below 0 as 0", operations::<NeverBelow0>()),
    ("a largest lag without its minus", operations::<NoMinus>()),
    ("the first panel's floor alone", operations::<FirstFloor>()),
    ("floors of 0 without a rule", operations::<FloorsOf0>()),
    ("a spare's column counted", operations::<SpareCounted>()),
    ("14 for a spare", operations::<SpareRefused>()),
    ("the first panel alone tested", operations::<FirstTested>()),
    ("the latest by smallest lags", operations::<OtherLatest>()),
    ("two rules unlike", operations::<RulesUnlike>()),
];

/// Mistakes that a plan and its timings do not show: about 14, and about the rule line.
pub const OTHERS: [(&str, Operations); 13] = [
    ("no 14", operations::<Never14>()),
    ("14 without a rule", operations::<Always14>()),
    ("14 before 6", operations::<Before6>()),
    ("14 behind 8", operations::<Behind8>()),
    ("14 behind 10 and 11", operations::<Behind10>()),
    ("a rule line anywhere", operations::<Anywhere>()),
    ("two rule lines", operations::<Twice>()),
    ("rule 2 by its value", operations::<ByValue>()),
    ("rule 1 for the marks", operations::<RuleOne>()),
    ("a rule line without its end", operations::<NoEnd>()),
    ("marks under rule 2", operations::<MarksUnderRule>()),
    ("no marks for a rule", operations::<NoMarksForRule>()),
    ("the rule before the length", operations::<BeforeLength>()),
];

/// A sheet under rule 2 with its marks written out, and then changed.
fn with_other_marks(sheet: &[u8], change: impl FnOnce(&mut Draft)) -> Vec<u8> {
    changed(sheet, |draft| {
        if draft.by_spread {
            draft.say_by_marks();
            change(draft);
        }
    })
}

/// A sheet under rule 2 with due marks by another choice from the lags of each trigger, where that finds one.
fn with_other_dues(sheet: &[u8], choice: fn(&[Option<i64>]) -> Option<i64>) -> Vec<u8> {
    with_other_marks(sheet, |draft| {
        for (j, due) in draft.due.iter_mut().enumerate() {
            let lags: Vec<Option<i64>> = draft.lag.iter().map(|row| row[j]).collect();
            *due = choice(&lags).map_or(*due, |lag| -lag);
        }
    })
}

struct NoDue;
impl Mistake for NoDue {
    fn taken(sheet: &[u8]) -> Vec<u8> {
        with_other_marks(sheet, |draft| draft.due.fill(0))
    }
}

/// Rows are taken for columns.
struct OfPanels;
impl Mistake for OfPanels {
    fn taken(sheet: &[u8]) -> Vec<u8> {
        with_other_marks(sheet, |draft| {
            for (due, lags) in draft.due.iter_mut().zip(&draft.lag) {
                *due = lags.iter().flatten().max().map_or(0, |lag| -lag);
            }
        })
    }
}

struct Smallest;
impl Mistake for Smallest {
    fn taken(sheet: &[u8]) -> Vec<u8> {
        with_other_dues(sheet, |lags| lags.iter().flatten().min().copied())
    }
}

/// Each lag takes the place of the one before.
struct LastPanel;
impl Mistake for LastPanel {
    fn taken(sheet: &[u8]) -> Vec<u8> {
        with_other_dues(sheet, |lags| lags.iter().flatten().last().copied())
    }
}

/// The largest is looked for from 0 on.
struct NeverBelow0;
impl Mistake for NeverBelow0 {
    fn taken(sheet: &[u8]) -> Vec<u8> {
        with_other_dues(sheet, |lags| {
            lags.iter().flatten().copied().max().max(Some(0))
        })
    }
}

struct NoMinus;
impl Mistake for NoMinus {
    fn taken(sheet: &[u8]) -> Vec<u8> {
        with_other_marks(sheet, |draft| {
            draft.due.iter_mut().for_each(|due| *due = -*due)
        })
    }
}

/// The latest landing is held against the first panel's.
struct FirstFloor;
impl Mistake for FirstFloor {
    fn taken(sheet: &[u8]) -> Vec<u8> {
        with_other_marks(sheet, |draft| draft.floor[1..].fill(None))
    }
}

/// A floor that the marks leave out counts as 0, whatever the rule.
struct FloorsOf0;
impl Mistake for FloorsOf0 {
    fn taken(sheet: &[u8]) -> Vec<u8> {
        changed(sheet, |draft| {
            let floors = draft.floor.iter_mut();
            floors.for_each(|floor| *floor = floor.or(Some(0)));
        })
    }
}

/// A sheet under rule 2 with a rule that asks nothing for each spare trigger.
fn used(draft: &mut Draft) {
    for (j, spare) in draft.spares().into_iter().enumerate() {
        if spare {
            draft.after[j][j] = Some(0);
        }
    }
}

/// The largest of no lags is 0, and a spare trigger is measured by it.
struct SpareCounted;
impl Mistake for SpareCounted {
    fn taken(sheet: &[u8]) -> Vec<u8> {
        with_other_marks(sheet, used)
    }
}

struct SpareRefused;
impl Mistake for SpareRefused {
    fn taken(sheet: &[u8]) -> Vec<u8> {
        changed(sheet, |draft| {
            if draft.by_spread {
                used(draft);
            }
        })
    }
}

/// Planned right, and tested by another spread.
struct FirstTested;
impl Mistake for FirstTested {
    fn test(sheet: &[u8], times: &[i64]) -> u32 {
        itself::test(&FirstFloor::taken(sheet), times)
    }
}

/// The list is right, and the latest times are those of another one.
struct OtherLatest;
impl Mistake for OtherLatest {
    fn latest(sheet: &[u8], given: &[i64], space: &mut [i32]) -> LatestAnswer {
        let mut answer = itself::latest(sheet, given, space);
        if answer.code == 0 {
            let mut enough = vec![0; 1000 * CAPPED_WORDS];
            let other = itself::latest(&Smallest::taken(sheet), given, &mut enough);
            answer.words[1..=SIZE].copy_from_slice(&other.words[1..=SIZE]);
        }
        answer
    }
}

/// A sheet under rule 2 is not compared with one under the marks.
struct RulesUnlike;
impl Mistake for RulesUnlike {
    fn same(first: &[u8], second: &[u8], left: &mut [i32], right: &mut [i32]) -> SameAnswer {
        let mut answer = itself::same(first, second, left, right);
        let compared = [SAME, DIFFERENT].contains(&answer.code);
        if compared && read(first).by_spread != read(second).by_spread {
            answer.code = UNLIKE;
        }
        answer
    }
}

// ---------------------------------------------------------------- 14

/// A sheet that is refused with 14 and is nothing else.
const LAGLESS: &[u8] = b"rule=2\npanels=1\ntriggers=2\nlag=0,-\nafter=-,-\nafter=-,0\n";

fn is_14(sheet: &[u8]) -> bool {
    reference::read(sheet).err() == Some(14)
}

/// A trigger without a lag is due at 0.
struct Never14;
impl Mistake for Never14 {
    fn taken(sheet: &[u8]) -> Vec<u8> {
        if is_14(sheet) {
            with_marks(sheet)
        } else {
            sheet.to_vec()
        }
    }
}

/// The old rule asks for a lag too.
struct Always14;
impl Mistake for Always14 {
    fn taken(sheet: &[u8]) -> Vec<u8> {
        let text = String::from_utf8_lossy(sheet);
        match reference::read(sheet) {
            Ok(_) if has_lagless(&text) => LAGLESS.to_vec(),
            _ => sheet.to_vec(),
        }
    }
}

/// Triggers are looked at before panels.
struct Before6;
impl Mistake for Before6 {
    fn taken(sheet: &[u8]) -> Vec<u8> {
        let text = String::from_utf8_lossy(sheet);
        match reference::read(sheet) {
            Err(6) if text.starts_with(RULE) && has_lagless(&text) => LAGLESS.to_vec(),
            _ => sheet.to_vec(),
        }
    }
}

/// Whether some trigger has a rule and no lag, on a sheet whose lines are good.
fn has_lagless(text: &str) -> bool {
    let rows = |key: &str| -> Vec<Vec<bool>> {
        let lines = text.lines().filter_map(|line| line.strip_prefix(key));
        let present = |items: &str| items.split(',').map(|item| item != "-").collect();
        lines.map(present).collect()
    };
    let [lag, after, land] = ["lag=", "after=", "land="].map(rows);
    let in_row =
        |table: &[Vec<bool>], j: usize| table.get(j).is_some_and(|row| row.contains(&true));
    let in_column = |table: &[Vec<bool>], j: usize| table.iter().any(|row| row[j]);
    let has_rule = |j| in_row(&after, j) || in_column(&after, j) || in_row(&land, j);
    (0..after.len()).any(|j| has_rule(j) && !in_column(&lag, j))
}

/// The order is looked at first.
struct Behind8;
impl Mistake for Behind8 {
    fn taken(sheet: &[u8]) -> Vec<u8> {
        let marked = Never14::taken(sheet);
        match reference::survey(&marked) {
            Err(8) => marked,
            _ => sheet.to_vec(),
        }
    }
}

/// The given times are looked at first.
struct Behind10;
impl Mistake for Behind10 {
    fn test(sheet: &[u8], times: &[i64]) -> u32 {
        match itself::test(&Never14::taken(sheet), times) {
            number @ (10 | 11) => number,
            _ => itself::test(sheet, times),
        }
    }
}

// ---------------------------------------------------------------- Reading

struct Anywhere;
impl Mistake for Anywhere {
    fn taken(sheet: &[u8]) -> Vec<u8> {
        with_lines(sheet, |lines| lines.sort_by_key(|line| line != RULE))
    }
}

struct Twice;
impl Mistake for Twice {
    fn taken(sheet: &[u8]) -> Vec<u8> {
        with_lines(sheet, |lines| {
            lines.dedup_by(|line, before| line == RULE && before == RULE);
        })
    }
}

/// The value is read as a number is elsewhere, and is looked at alone.
struct ByValue;
impl Mistake for ByValue {
    fn taken(sheet: &[u8]) -> Vec<u8> {
        with_lines(sheet, |lines| {
            let value = lines.first().and_then(|line| line.strip_prefix("rule="));
            if value.is_some_and(|value| value.trim().parse() == Ok(2)) {
                lines[0] = RULE.to_string();
            }
        })
    }
}

/// The old rule has a name.
struct RuleOne;
impl Mistake for RuleOne {
    fn taken(sheet: &[u8]) -> Vec<u8> {
        sheet.strip_prefix(b"rule=1\n").unwrap_or(sheet).to_vec()
    }
}

struct NoEnd;
impl Mistake for NoEnd {
    fn taken(sheet: &[u8]) -> Vec<u8> {
        match sheet.strip_prefix(b"rule=2") {
            Some(lines) if lines.starts_with(b"panels=") => [RULE.as_bytes(), lines].concat(),
            _ => sheet.to_vec(),
        }
    }
}

fn is_mark(line: &str) -> bool {
    ["floor=", "due="].iter().any(|key| line.starts_with(key))
}

/// Floors and due marks are read and not used.
struct MarksUnderRule;
impl Mistake for MarksUnderRule {
    fn taken(sheet: &[u8]) -> Vec<u8> {
        with_lines(sheet, |lines| {
            if lines.first().is_some_and(|line| line == RULE) {
                lines.retain(|line| !is_mark(line));
            }
        })
    }
}

/// A sheet without floors and due marks is taken for one under rule 2.
struct NoMarksForRule;
impl Mistake for NoMarksForRule {
    fn taken(sheet: &[u8]) -> Vec<u8> {
        with_lines(sheet, |lines| {
            let has = |key: &str| lines.iter().any(|line| line.starts_with(key));
            if !has("rule=") && !has("floor=") && !has("due=") {
                lines.insert(0, RULE.to_string());
            }
        })
    }
}

/// A wrong rule line is found in a sheet of any length.
struct BeforeLength;
impl Mistake for BeforeLength {
    fn taken(sheet: &[u8]) -> Vec<u8> {
        let wrong = sheet.starts_with(b"rule=") && !sheet.starts_with(RULE.as_bytes());
        if wrong {
            sheet[..sheet.len().min(LONGEST_SHEET)].to_vec()
        } else {
            sheet.to_vec()
        }
    }
}
