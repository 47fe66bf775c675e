//! What is timed.

use crate::sides::{KEPT, LATEST, MADE, PLAN, Task};
use crate::{chain, land, last, rule, spare};

/// Where the stored sheets are, from the top of the repository, and those that a search for slow ones found.
const SHEETS: &str = "tests/programs/sheets";
const CLIMBED_SHEETS: &str = "bench/sheets";

/// The sheet of the programs' class, document 01's whole case.
pub const WHOLE: &str = "whole";

/// The class of request 6's sheets, and how many they are; the first of them with land lines, with spare
/// triggers, with a last line, and under rule 2; the states from which they are made.
const HIRE: &str = "hire";
const HIRED: usize = 1000;
const LAND: &str = "land";
const LANDED: usize = 300;
const SPARE: &str = "spare";
const SPARED: usize = 300;
const LAST: &str = "last";
const TIMED: usize = 300;
const RULE: &str = "rule";
const RULED: usize = 300;
const MAKE: &str = "make";

/// The class of the sheets that were found.
const CLIMBED: &str = "climbed";

/// Key, name, sheets and task of each class; sheets but HIRE, LAND, SPARE, LAST, RULE, CLIMBED and
/// MAKE are a stored one.
const CLASSES: [Kind; 17] = [
    (WHOLE, "whole case", WHOLE, PLAN),
    (HIRE, "1,000 sheets of request 6", HIRE, PLAN),
    (LAND, "300 sheets with land lines", LAND, PLAN),
    (SPARE, "300 sheets with two spare triggers", SPARE, PLAN),
    (LAST, "300 sheets with a last line", LAST, PLAN),
    (RULE, "300 sheets under rule 2", RULE, PLAN),
    (UNPRUNED, "46,656 selections", UNPRUNED, PLAN),
    (AFTER, "46,656 selections, after rules", AFTER, PLAN),
    (LISTED, "22,500 selections, 22 lines", LISTED, PLAN),
    (LINES72, "72 lines", LINES72, PLAN),
    (SPREAD, "bounds that spread", SPREAD, PLAN),
    (
        CLIMBED,
        "sheets found by a search for slow ones",
        CLIMBED,
        PLAN,
    ),
    ("kept", "kept table, 46,656 selections", UNPRUNED, KEPT),
    (
        "kept_after",
        "kept table, 46,656 selections, after rules",
        AFTER,
        KEPT,
    ),
    (
        "latest",
        "latest times, 1,000 sheets of request 6",
        HIRE,
        LATEST,
    ),
    ("latest72", "latest times, 72 lines", LINES72, LATEST),
    (MAKE, "making, 1,000 sheets of request 6", MAKE, MADE),
];
type Kind = (&'static str, &'static str, &'static str, Task);

const UNPRUNED: &str = "unpruned_distinct";
const AFTER: &str = "unpruned_after";
const LISTED: &str = "lines_times_selections";
const LINES72: &str = "lines72";
const SPREAD: &str = "bounds_spread";

/// Sheets, or states from which some are made, that are worked on one after the other.
pub struct Class {
    pub key: &'static str,
    pub name: &'static str,
    pub sheets: Vec<Vec<u8>>,
    pub task: Task,
}

pub fn known(key: &str) -> bool {
    CLASSES.iter().any(|&(known, ..)| known == key)
}

/// The classes that are wanted, or the stored sheet that cannot be read.
pub fn classes(wanted: impl Fn(&str) -> bool) -> Result<Vec<Class>, String> {
    let wanted = CLASSES.into_iter().filter(|(key, ..)| wanted(key));
    wanted
        .map(|(key, name, stored, task)| {
            let sheets = sheets(stored)?;
            Ok(Class {
                key,
                name,
                sheets,
                task,
            })
        })
        .collect()
}

pub fn path(key: &str) -> String {
    format!("{SHEETS}/{key}.txt")
}

fn sheets(key: &str) -> Result<Vec<Vec<u8>>, String> {
    match key {
        HIRE => Ok(chain::chained(HIRED)),
        LAND => Ok(land::chained(LANDED)),
        SPARE => Ok(spare::chained(SPARED)),
        LAST => Ok(last::chained(TIMED)),
        RULE => Ok(rule::chained(RULED)),
        CLIMBED => climbed(),
        MAKE => Ok(chain::states(HIRED)),
        _ => stored(&path(key)).map(|sheet| vec![sheet]),
    }
}

/// Every stored sheet, the found ones among them.
pub fn all_stored() -> Result<Vec<Vec<u8>>, String> {
    Ok([stored_in(SHEETS, "")?, climbed()?].concat())
}

fn climbed() -> Result<Vec<Vec<u8>>, String> {
    stored_in(CLIMBED_SHEETS, "climbed_")
}

/// The sheets of a folder whose files' names begin so, by name; at least one.
fn stored_in(folder: &str, begin: &str) -> Result<Vec<Vec<u8>>, String> {
    let said = |error| format!("{folder}: {error}");
    let files = std::fs::read_dir(folder).map_err(said)?;
    let names = files.map(|file| Ok(file.map_err(said)?.file_name().to_string_lossy().into()));
    let mut names = names.collect::<Result<Vec<String>, String>>()?;
    names.retain(|name| name.starts_with(begin) && name.ends_with(".txt"));
    if names.is_empty() {
        return Err(format!("{folder}: no sheet {begin}*.txt"));
    }
    names.sort();
    let paths = names.iter().map(|name| format!("{folder}/{name}"));
    paths.map(|path| stored(&path)).collect()
}

pub fn stored(path: &str) -> Result<Vec<u8>, String> {
    std::fs::read(path).map_err(|error| format!("{path}: {error}"))
}
