//! The cases of document 01, as checks of the reference: the whole case, those marked P and the
//! other edges; then the places of reading a sheet that are easily got wrong, and the largest sheets.

use crate::latest::{Reached, latest};
use crate::reference::{self, LINE_WORDS, Likeness, NoPlan, NotCompared, Plan};

/// The whole case of document 01.
pub const WHOLE: &str =
    "panels=2\ntriggers=2\nlag=2,0\nlag=4,1\nfloor=5,2\ndue=1,2\nafter=-,-\nafter=-,-\n";
const WHOLE_TEXT: &str = "deviation=2\nsteps=2\nselections=1\ncount=2\nline=-1,0\nline=0,-\n";
/// "lags 0,0; floor 0; due 0,0; after lines -,- and 1,-"
const TWO_SELECTIONS: &str =
    "panels=1\ntriggers=2\nlag=0,0\nfloor=0\ndue=0,0\nafter=-,-\nafter=1,-\n";
/// "lags 0,- and -,0; floors 0,-; due 0,0; after entries all absent"
pub const NO_SECOND_FLOOR: &str =
    "panels=2\ntriggers=2\nlag=0,-\nlag=-,0\nfloor=0,-\ndue=0,0\nafter=-,-\nafter=-,-\n";
/// One panel and three triggers: a growing set of independent lines has four on the way to three.
const FOUR_TO_THREE: &str = "panels=1\ntriggers=3\nlag=0,0,-1\nfloor=1\ndue=0,0,1\nafter=-,-1,-\nafter=-,-,-\nafter=0,0,0\n";

/// Six by six without its after lines: a list of 72 lines.
const MOST_LINES: &str = "\
panels=6
triggers=6
lag=-2,6,-2,1,16,32
lag=-337,165,230,-29,-136,-308
lag=17,10,0,173,-295,-75
lag=7,47,-191,-18,18,-200
lag=310,456,38,-10,251,0
lag=81,350,-250,285,-3,366
floor=106,-33,20,-39,212,170
due=-45,-194,21,8,3,-13
";
/// Six by six without its after lines: nothing is pruned, so steps reach their bound.
const MOST_STEPS: &str = "\
panels=6
triggers=6
lag=50,85,120,155,190,225
lag=40,69,98,127,156,180
lag=30,53,76,94,117,135
lag=20,37,49,66,78,90
lag=10,21,27,33,39,45
lag=0,0,0,0,0,0
floor=0,0,0,0,0,0
due=0,0,0,0,0,0
";
pub const NO_RULES: &str = "after=-,-,-,-,-,-\n";

/// 9 for a list of two lines of a sheet without a last line.
const TWO_DO_NOT_FIT: NoPlan = NoPlan::SpaceTooSmall {
    count: 2,
    line_words: LINE_WORDS,
};

/// "sheets of one panel and one trigger, lag 5, floor 0, due 0"
pub fn one_by_one(after: &str) -> String {
    sheet_of("1", "1", "5", "0", "0", after)
}

pub fn sheet_of(
    panels: &str,
    triggers: &str,
    lag: &str,
    floor: &str,
    due: &str,
    after: &str,
) -> String {
    format!(
        "panels={panels}\ntriggers={triggers}\nlag={lag}\nfloor={floor}\ndue={due}\nafter={after}\n"
    )
}

/// A sheet of six by six whose entries are all `entry`, with no after rule.
fn six_by_six(entry: &str) -> String {
    let row = [entry; 6].join(",");
    let lag = format!("lag={row}\n").repeat(6);
    let after = NO_RULES.repeat(6);
    format!("panels=6\ntriggers=6\n{lag}floor={row}\ndue={row}\n{after}")
}

fn six_with_no_rules(sheet: &str) -> String {
    sheet.to_string() + &NO_RULES.repeat(6)
}

/// Six lines that have an entry below the diagonal and no others.
pub fn chain(key: &str, entry: &str) -> String {
    let mut rows = vec![["-"; 6]; 6];
    (1..6).for_each(|i| rows[i][i - 1] = entry);
    let line = |row: &[&str; 6]| format!("{key}={}\n", row.join(","));
    rows.iter().map(line).collect()
}

/// One panel that only trigger 1 reaches, with every later trigger 100,000 after the one before:
/// M* and r as far as after rules take them.
pub fn long_chain() -> String {
    let after = chain("after", "100000");
    let due = ["-100000"; 6].join(",");
    format!("panels=1\ntriggers=6\nlag=-100000,-,-,-,-,-\nfloor=100000\ndue={due}\n{after}")
}

/// The whole case with line feeds behind it, up to a length.
fn padded(length: usize) -> Vec<u8> {
    let mut bytes = WHOLE.as_bytes().to_vec();
    bytes.resize(length, b'\n');
    bytes
}

/// Counts checks and tells those that fail.
#[derive(Default)]
pub struct Checks {
    pub passed: u64,
    pub failed: u64,
}

impl Checks {
    pub fn check(&mut self, name: &str, holds: bool) {
        if holds {
            self.passed += 1;
        } else {
            self.failed += 1;
            println!("failed: {name}");
        }
    }
}

/// All sheets named here; the comparison begins with them.
pub fn sheets() -> Vec<Vec<u8>> {
    let mut sheets: Vec<Vec<u8>> = plan_cases()
        .into_iter()
        .map(|(_, sheet, _)| sheet.into_bytes())
        .collect();
    sheets.extend([MOST_LINES, MOST_STEPS].map(|sheet| six_with_no_rules(sheet).into_bytes()));
    sheets.extend(reading_cases().into_iter().map(|(_, sheet, _)| sheet));
    sheets
}

/// Every check of `compare --self` that is a case.
pub fn run(checks: &mut Checks) {
    for (name, sheet, text) in plan_cases() {
        checks.check(name, reference::plan_text(sheet.as_bytes()) == text);
    }
    for (name, sheet, code) in reading_cases() {
        let read = reference::read(&sheet).err().unwrap_or(0);
        checks.check(name, read == code);
        checks.check(
            name,
            code == 0 || reference::plan_text(&sheet) == format!("refused={code}\n"),
        );
    }
    kept_cases(checks);
    largest_cases(checks);
    space_cases(checks);
    test_cases(checks);
    latest_cases(checks);
    same_cases(checks);
}

/// Sheets with something behind them, and the refusal of reading.
pub fn behind_sheets(sheets: &[(&str, &[(&str, u32)])]) -> impl Iterator<Item = (String, u32)> {
    sheets.iter().flat_map(|(sheet, cases)| {
        let cases = cases.iter();
        cases.map(move |(behind, code)| (format!("{sheet}{behind}"), *code))
    })
}

/// The planning program's text of some sheets, and reading's refusal of others, 0 for none.
pub fn texts_and_codes(
    checks: &mut Checks,
    plans: Vec<(String, &'static str)>,
    readings: Vec<(String, u32)>,
) {
    for (sheet, text) in plans {
        let planned = reference::plan_text(sheet.as_bytes());
        checks.check(&format!("plan {planned:?} of {sheet:?}"), planned == text);
    }
    for (sheet, code) in readings {
        let read = reference::read(sheet.as_bytes()).err().unwrap_or(0);
        checks.check(&format!("{read} in reading {sheet:?}"), read == code);
    }
}

/// Name, sheet and the planning program's text.
fn plan_cases() -> Vec<(&'static str, String, &'static str)> {
    let one_line = "deviation=-5\nsteps=1\nselections=1\ncount=1\nline=0\n";
    vec![
        ("P: after absent", one_by_one("-"), one_line),
        ("P: after 0", one_by_one("0"), one_line),
        ("P: after 1", one_by_one("1"), "refused=8\n"),
        ("P: after -1", one_by_one("-1"), one_line),
        (
            "P: two selections",
            TWO_SELECTIONS.to_string(),
            "deviation=0\nsteps=2\nselections=2\ncount=2\nline=-,0\nline=-1,0\n",
        ),
        (
            "P: no second floor",
            NO_SECOND_FLOOR.to_string(),
            "deviation=0\nsteps=1\nselections=1\ncount=2\nline=0,-\nline=0,0\n",
        ),
        ("P: whole case", WHOLE.to_string(), WHOLE_TEXT),
        (
            "the least deviation that there is",
            sheet_of("1", "1", "100000", "-100000", "100000", "-"),
            "deviation=-300000\nsteps=1\nselections=1\ncount=1\nline=0\n",
        ),
        (
            "the greatest deviation without land lines",
            long_chain(),
            "deviation=800000\nsteps=1\nselections=1\ncount=1\n\
             line=-500000,-400000,-300000,-200000,-100000,0\n",
        ),
        (
            "a circle that sums to 0",
            TWO_SELECTIONS.replace("after=-,-", "after=-,-1"),
            "deviation=0\nsteps=2\nselections=2\ncount=1\nline=-1,0\n",
        ),
        (
            "a circle that sums to 1",
            TWO_SELECTIONS.replace("after=-,-", "after=-,0"),
            "refused=8\n",
        ),
    ]
}

/// Name, sheet and the refusal of reading, or 0.
fn reading_cases() -> Vec<(&'static str, Vec<u8>, u32)> {
    let one = |lag: &str, floor: &str, due: &str| sheet_of("1", "1", lag, floor, due, "-");
    let sized = |panels: &str, triggers: &str| sheet_of(panels, triggers, "5", "0", "0", "-");
    let two = |lag: &str, due: &str| sheet_of("1", "2", lag, "0", due, "-,-") + "after=-,-\n";
    let text: Vec<(&'static str, String, u32)> = vec![
        ("empty input", String::new(), 2),
        ("sizes 1", one("5", "0", "0"), 0),
        ("sizes 6", six_by_six("0"), 0),
        ("lag 100000", one("100000", "0", "0"), 0),
        ("lag -100000", one("-100000", "0", "0"), 0),
        ("lag 100001", one("100001", "0", "0"), 4),
        ("lag -100001", one("-100001", "0", "0"), 4),
        ("lag -0", one("-0", "0", "0"), 2),
        ("lag 00", one("00", "0", "0"), 2),
        ("lag 05", one("05", "0", "0"), 2),
        ("lag -05", one("-05", "0", "0"), 2),
        ("lag +5", one("+5", "0", "0"), 2),
        ("lag --", one("--", "0", "0"), 2),
        ("lag empty", one("", "0", "0"), 2),
        ("lag with a space", one(" 5", "0", "0"), 2),
        ("lag with a carriage return", one("5\r", "0", "0"), 2),
        ("lag of 500 nines", one(&"9".repeat(500), "0", "0"), 4),
        (
            "lag that would wrap in 32 bits",
            one("4294967301", "0", "0"),
            4,
        ),
        (
            "lag that would wrap in 64 bits",
            one("18446744073709551621", "0", "0"),
            4,
        ),
        ("panels 0", sized("0", "1"), 3),
        ("panels 7", sized("7", "1"), 3),
        ("panels -1", sized("-1", "1"), 3),
        ("panels 100001", sized("100001", "1"), 3),
        ("panels of 500 nines", sized(&"9".repeat(500), "1"), 3),
        ("panels absent", sized("-", "1"), 2),
        ("panels twice", sized("1,1", "1"), 2),
        ("triggers 0", sized("1", "0"), 3),
        ("triggers 7", sized("1", "7"), 3),
        ("triggers absent", sized("1", "-"), 2),
        ("panels 7 without a line end", "panels=7".to_string(), 2),
        ("panels 7 with its line end", "panels=7\n".to_string(), 3),
        ("panels 7 and rubbish", "panels=7\nrubbish".to_string(), 3),
        ("floor 100001", one("5", "100001", "0"), 4),
        ("due 100001", one("5", "0", "100001"), 4),
        ("due absent", one("5", "0", "-"), 5),
        (
            "due absent before an after out of range",
            sheet_of("1", "1", "5", "0", "-", "100001"),
            5,
        ),
        ("after 100001", one_by_one("100001"), 4),
        ("lag out of range and no numeral", two("100001,x", "0,0"), 2),
        ("lag out of range and too few", two("100001", "0,0"), 2),
        ("lag with too many", two("0,0,0", "0,0"), 2),
        ("due absent and out of range", two("0,0", "-,100001"), 4),
        ("due absent and no numeral", two("0,0", "-,x"), 2),
        ("last line without its end", WHOLE.trim_end().to_string(), 2),
        ("a line missing", WHOLE.replace("floor=5,2\n", ""), 2),
        ("a wrong key", WHOLE.replace("floor", "Floor"), 2),
        ("a key with a space", WHOLE.replace("due=", "due ="), 2),
        ("an empty line left over", format!("{WHOLE}\n"), 2),
        ("left over before no lag", one("-", "0", "0") + "x", 2),
        ("no lag", one("-", "0", "0"), 6),
        ("no lag and no floor", one("-", "-", "0"), 6),
        ("no floor", one("5", "-", "0"), 7),
    ];
    let mut cases: Vec<(&'static str, Vec<u8>, u32)> = text
        .into_iter()
        .map(|(name, sheet, code)| (name, sheet.into_bytes(), code))
        .collect();
    cases.push(("2,048 bytes", padded(2048), 2));
    cases.push(("2,049 bytes", padded(2049), 1));
    cases.push(("a byte that is no text", vec![0xff, b'\n'], 2));
    cases
}

/// The kept program's text.
fn kept_cases(checks: &mut Checks) {
    let mut check = |name, sheet: &str, text: &str| {
        checks.check(name, reference::kept_text(sheet.as_bytes()) == text);
    };
    check(
        "kept, whole case",
        WHOLE,
        "deviation=2\nkept=1,1\nkept=3,2\nsteps=2\nselections=1\n",
    );
    check(
        "kept, two selections",
        TWO_SELECTIONS,
        "deviation=0\nkept=3,2\nsteps=2\nselections=2\n",
    );
    check(
        "kept, no second floor",
        NO_SECOND_FLOOR,
        "deviation=0\nkept=1,1\nkept=0,0\nsteps=1\nselections=1\n",
    );
    check("kept, refused", &one_by_one("1"), "refused=8\n");
    let six = reference::kept_text(six_by_six("0").as_bytes());
    let rows = "kept=63,6\n".repeat(6);
    checks.check(
        "kept, six by six: a tie leaves one trigger",
        six == format!("deviation=0\n{rows}steps=36\nselections=6\n"),
    );
}

/// The most lines and the most steps.
fn largest_cases(checks: &mut Checks) {
    let plan = reference::plan_text(six_with_no_rules(MOST_LINES).as_bytes());
    let head = "deviation=87\nsteps=148\nselections=59\ncount=72\n";
    checks.check(
        "72 lines",
        plan.starts_with(head) && plan.lines().count() == 76,
    );
    // 6 + 6² + ... + 6⁶ fixings, 6⁶ selections.
    let kept = reference::kept_text(six_with_no_rules(MOST_STEPS).as_bytes());
    let tail = "steps=55986\nselections=46656\n";
    checks.check("55,986 steps", kept.ends_with(tail));
}

/// The lent space: written at the front, left behind it, untouched by a refusal.
fn space_cases(checks: &mut Checks) {
    let whole = Plan {
        deviation: 2,
        steps: 2,
        selections: 1,
        count: 2,
        spares: 0,
        line_words: LINE_WORDS,
    };
    let absent = i32::MIN;
    let line = |a: i32, b: i32| [2, a, b, absent, absent, absent, absent];
    let list = [line(-1, 0), line(0, absent)].concat();
    for words in 0..4 * LINE_WORDS {
        let mut space = vec![77; words];
        let answer = reference::plan(WHOLE.as_bytes(), &mut space);
        let name = format!("whole case with {words} words");
        if words < 2 * LINE_WORDS {
            checks.check(&name, answer == Err(TWO_DO_NOT_FIT));
            checks.check(&name, space.iter().all(|word| *word == 77));
            let text = reference::plan_answer_text(&answer, &space);
            checks.check(&name, text == "refused=9\ncount=2\n");
        } else {
            checks.check(&name, answer == Ok(whole));
            checks.check(&name, space[..list.len()] == list);
            checks.check(&name, space[list.len()..].iter().all(|word| *word == 77));
        }
    }
    let mut space = [77; 50];
    let refused = reference::plan(one_by_one("1").as_bytes(), &mut space);
    checks.check(
        "refused plan",
        refused == Err(NoPlan::Refused(8)) && space == [77; 50],
    );
    let three = reference::plan_text(FOUR_TO_THREE.as_bytes());
    checks.check("four on the way to three", three.contains("\ncount=3\n"));
}

/// Testing a timing.
fn test_cases(checks: &mut Checks) {
    let mut check = |name: &str, sheet: &str, times: &[i64], wanted| {
        checks.check(name, reference::test(sheet.as_bytes(), times) == wanted);
    };
    let limit = reference::LONGEST_TIME;
    check("P: times 0,0", WHOLE, &[0, 0], Ok(true));
    check("P: times 0,1", WHOLE, &[0, 1], Ok(true));
    check("P: times 0,2", WHOLE, &[0, 2], Ok(false));
    check("times at the limit", WHOLE, &[limit, limit], Ok(true));
    check("times at the lower limit", WHOLE, &[-limit; 2], Ok(true));
    check("times beyond", WHOLE, &[limit + 1, limit], Err(11));
    check("times below", WHOLE, &[0, -limit - 1], Err(11));
    check("none", WHOLE, &[], Err(10));
    check("too few", WHOLE, &[0], Err(10));
    check("too many", WHOLE, &[0, 0, 0], Err(10));
    check("far too many", WHOLE, &[limit + 1; 7], Err(10));
    check("reading first", "", &[limit + 1; 7], Err(2));
    check("10 before 8", &one_by_one("1"), &[0, 0], Err(10));
    check("11 before 8", &one_by_one("1"), &[limit + 1], Err(11));
    check("8", &one_by_one("1"), &[0], Err(8));
    check("an order broken", TWO_SELECTIONS, &[0, 0], Ok(false));
    check("an order kept", TWO_SELECTIONS, &[0, 1], Ok(true));
}

/// The latest timing: which it is, the order of the refusals, and the space, which a refusal leaves.
fn latest_cases(checks: &mut Checks) {
    let mut check = |name: &str, sheet: &str, given: &[i64], words: usize, wanted| {
        let (name, sheet) = (format!("latest, {name}"), sheet.as_bytes());
        let (mut space, mut planned) = (vec![77; words], vec![77; words]);
        let answer = latest(sheet, given, &mut space);
        if answer.is_ok() {
            checks.check(&name, reference::plan(sheet, &mut planned).is_ok());
        }
        checks.check(&name, answer == wanted && space == planned);
    };
    let is = |times: &[i64]| {
        let times = times.to_vec();
        Ok(Reached {
            count: 2,
            line_words: LINE_WORDS,
            times,
        })
    };
    let refused = |number| Err(NoPlan::Refused(number));
    let full = || Err(TWO_DO_NOT_FIT);
    let circle = &one_by_one("1");
    let limit = reference::LONGEST_TIME;
    check("0,2", WHOLE, &[0, 2], 30, is(&[0, 1]));
    check("0,1", WHOLE, &[0, 1], 14, is(&[0, 1]));
    check("5,-3", WHOLE, &[5, -3], 14, is(&[5, -3]));
    check("3,9", NO_SECOND_FLOOR, &[3, 9], 14, is(&[3, 3]));
    let far = [-limit, 1 - limit];
    check("far", WHOLE, &[-limit, limit], 14, is(&far));
    let below = [-limit - 1, -limit];
    check("below", TWO_SELECTIONS, &[-limit; 2], 14, is(&below));
    check("a word too few", WHOLE, &[0, 2], 13, full());
    check("no word", WHOLE, &[0, 2], 0, full());
    check("2 before 10", "", &[limit + 1; 7], 0, refused(2));
    check("10 before 11", WHOLE, &[limit + 1; 3], 0, refused(10));
    check("11 before 9", WHOLE, &[0, limit + 1], 0, refused(11));
    check("11 before 8", circle, &[-limit - 1], 0, refused(11));
    check("8 before 9", circle, &[0], 0, refused(8));
}

/// Two sheets: what they are, and a refusal of either, which leaves both spaces.
fn same_cases(checks: &mut Checks) {
    let mut check = |name: &str, sheets: [&str; 2], words: [usize; 2], wanted| {
        let [mut left, mut right] = words.map(|words| vec![77; words]);
        let [first, second] = sheets.map(str::as_bytes);
        let answer = reference::same(first, second, &mut left, &mut right);
        checks.check(name, answer == wanted);
        let counts = wanted.map_or([0, 0], |(_, counts, _)| counts);
        for (space, count) in [left, right].iter().zip(counts) {
            let mut written = space.iter().take_while(|word| **word != 77);
            checks.check(name, written.by_ref().count() == count * LINE_WORDS);
        }
    };
    let exchanged = WHOLE
        .replace("lag=2,0\nlag=4,1", "lag=4,1\nlag=2,0")
        .replace("floor=5,2", "floor=2,5");
    let later = WHOLE.replace("due=1,2", "due=1,3");
    let (one, circle) = (one_by_one("-"), one_by_one("1"));
    let enough = [30, 30];
    let full = TWO_DO_NOT_FIT;
    let (first, second) = (NotCompared::First, NotCompared::Second);
    let refused = NoPlan::Refused;
    let is = |likeness, counts| Ok((likeness, counts, [LINE_WORDS; 2]));
    let same = is(Likeness::Same, [2, 2]);
    check("same", [WHOLE, WHOLE], enough, same);
    check("panels exchanged", [WHOLE, &exchanged], enough, same);
    check(
        "a later due mark",
        [WHOLE, &later],
        enough,
        is(Likeness::Different, [2, 2]),
    );
    check(
        "other triggers",
        [WHOLE, &one],
        enough,
        is(Likeness::Unlike, [2, 1]),
    );
    check("8 before 2", [&circle, ""], enough, Err(first(refused(8))));
    check("2 before 8", ["", &circle], enough, Err(first(refused(2))));
    check("9 before 2", [WHOLE, ""], [13, 30], Err(first(full)));
    check(
        "2 of the second",
        [WHOLE, ""],
        [14, 30],
        Err(second(refused(2))),
    );
    check("9 of the second", [&one, WHOLE], [7, 13], Err(second(full)));
}
