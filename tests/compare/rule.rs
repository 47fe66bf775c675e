//! Cases of document 02's No. 7, the new rule of the houses, as checks of the reference; what sheets under rule 2
//! can be like; and what the request says of them, to which an implementation is held.

use crate::cases::{Checks, WHOLE, behind_sheets, chain, texts_and_codes};
use crate::compare::{combined, same};
use crate::land::EXAMPLE_6;
use crate::latest::{Reached, latest};
use crate::reference::{
    self, CAPPED_WORDS, Entry, LIMIT, LINE_WORDS, LONGEST_TIME, Likeness, Line,
};
use crate::reference::{NoPlan, Sheet, Survey};
use crate::sheets::{RULE, Random};
use crate::spares::has_only;
use crate::under_test::{Operations, SAME};

/// Timings that are tried on each sheet under rule 2.
const TIMINGS: usize = 4;

/// The whole case's lags under rule 2: the second panel changes at least 1 after the first, and just 1 after it where
/// trigger 2 comes 3 or more after trigger 1.
const SPREAD: &str = "rule=2\npanels=2\ntriggers=2\nlag=2,0\nlag=4,1\nafter=-,-\nafter=-,-\n";
const SPREAD_TEXT: &str = "deviation=1\nsteps=2\nselections=1\ncount=2\nline=-,0\nline=-3,0\n";
/// A panel for each of two triggers: both change together where both triggers come together.
const APART: &str = "rule=2\npanels=2\ntriggers=2\nlag=0,-\nlag=-,0\nafter=-,-\nafter=-,-\n";
/// Nothing is about trigger 2.
const IDLE: &str = "rule=2\npanels=1\ntriggers=2\nlag=0,-\nafter=-,-\nafter=-,-\n";
const IDLE_TEXT: &str = "deviation=0\nsteps=1\nselections=1\ncount=1\nline=0,s\n";
/// One panel and two triggers: it changes when it changes, and no times are better than others.
const TWO_TRIGGERS: &str = "rule=2\npanels=1\ntriggers=2\nlag=2,0\nafter=-,-\nafter=-,-\n";

fn one_by_one(lag: &str, after: &str) -> String {
    format!("{RULE}panels=1\ntriggers=1\nlag={lag}\nafter={after}\n")
}

/// Example 6 of document 000, as the document has it.
fn example_6() -> String {
    without_marks(EXAMPLE_6) + "last=7,7,7\n"
}

/// Rule 2 in the place of a sheet's marks.
fn without_marks(sheet: &str) -> String {
    let marks = ["floor=", "due="];
    let is_mark = |line: &&str| marks.iter().any(|key| line.starts_with(key));
    let lines = sheet.split_inclusive('\n').filter(|line| !is_mark(line));
    RULE.to_string() + &lines.collect::<String>()
}

/// The marks that count under rule 2 written out in the place of its line: no operation answers otherwise, but for
/// 14. The sheet is one that reading does not refuse before that.
pub fn with_marks(sheet: &[u8]) -> Vec<u8> {
    let text = String::from_utf8_lossy(sheet);
    let lines = text.strip_prefix(RULE).expect("the sheet is under rule 2");
    let lags = lines.lines().filter_map(|line| line.strip_prefix("lag="));
    let items = lags.map(|items| items.split(',').collect());
    let items: Vec<Vec<&str>> = items.collect();
    let due = |j: usize| {
        let present = items.iter().filter_map(|row| row[j].parse().ok());
        (-present.max().unwrap_or(0i64)).to_string()
    };
    let due: Vec<String> = (0..items[0].len()).map(due).collect();
    let floor = vec!["0"; items.len()].join(",");
    let marks = format!("floor={floor}\ndue={}\nafter=", due.join(","));
    lines.replacen("after=", &marks, 1).into_bytes()
}

/// All sheets named here; the comparison begins with them.
pub fn sheets() -> Vec<Vec<u8>> {
    let planned = plan_cases().into_iter().map(|(sheet, _)| sheet);
    let read = reading_cases().into_iter().map(|(sheet, _)| sheet);
    planned.chain(read).map(String::into_bytes).collect()
}

/// Every check of `compare --self` that is a case.
pub fn run(checks: &mut Checks) {
    texts_and_codes(checks, plan_cases(), reading_cases());
    checks.check("1,034 bytes", longest().len() == 1034);
    let kept = reference::kept_text(example_6().as_bytes());
    let wanted = "deviation=3\nkept=3,2\nkept=7,3\nkept=7,3\nsteps=6\nselections=2\n";
    checks.check("kept, example 6 under rule 2", kept == wanted);
    let marks = with_marks(without_marks(EXAMPLE_6).as_bytes());
    checks.check("example 6's marks", marks == EXAMPLE_6.as_bytes());
    test_cases(checks);
    latest_cases(checks);
    same_cases(checks);
}

/// Sheet and the planning program's text.
fn plan_cases() -> Vec<(String, &'static str)> {
    let one_line = "deviation=0\nsteps=1\nselections=1\ncount=1\nline=0\n";
    let with_after = |sheet: &str, rule: &str| sheet.replacen("after=-,-", rule, 1);
    vec![
        (one_by_one("5", "-"), one_line),
        (one_by_one("-5", "0"), one_line),
        (one_by_one("100000", "-"), one_line),
        (one_by_one("5", "1"), "refused=8\n"),
        (SPREAD.to_string(), SPREAD_TEXT),
        (SPREAD.to_string() + "land=-,-\nland=-,-\n", SPREAD_TEXT),
        (
            SPREAD.to_string() + "last=2,9\n",
            "deviation=1\nsteps=2\nselections=1\ncount=2\nline=-,0\ncap=2\nline=-3,0\ncap=2\n",
        ),
        (
            TWO_TRIGGERS.to_string(),
            "deviation=0\nsteps=2\nselections=2\ncount=2\nline=-,0\nline=0,-\n",
        ),
        (
            APART.to_string(),
            "deviation=0\nsteps=2\nselections=1\ncount=1\nline=0,0\n",
        ),
        // The order keeps them 5 apart, or lets them be so.
        (
            with_after(APART, "after=-,5"),
            "deviation=5\nsteps=4\nselections=2\ncount=1\nline=0,-5\n",
        ),
        (
            with_after(APART, "after=-,-5"),
            "deviation=0\nsteps=2\nselections=1\ncount=1\nline=0,0\n",
        ),
        (IDLE.to_string(), IDLE_TEXT),
        (IDLE.to_string() + "land=-\nland=-\n", IDLE_TEXT),
        (with_after(IDLE, "after=1,-"), "refused=8\n"),
        (
            without_marks(EXAMPLE_6),
            "deviation=3\nsteps=6\nselections=2\ncount=2\nline=-5,0,-2\nline=-3,0,-1\n",
        ),
        (
            example_6(),
            "deviation=3\nsteps=6\nselections=2\ncount=2\n\
             line=-5,0,-2\ncap=5\nline=-3,0,-1\ncap=4\n",
        ),
        (
            far_apart(),
            "deviation=1100000\nsteps=6\nselections=1\ncount=1\n\
             line=-900000,-800000,-600000,-400000,-200000,0\n",
        ),
    ]
}

/// A panel for each trigger, the first −100,000 behind its trigger and the others 100,000. The second trigger comes
/// 100,000 after the first, and each of the others 100,000 after the landing before.
fn far_apart() -> String {
    let panel = |i: usize| {
        let mut lags = ["-"; 6];
        lags[i] = if i == 0 { "-100000" } else { "100000" };
        format!("lag={}\n", lags.join(","))
    };
    let lag: String = (0..6).map(panel).collect();
    let after = chain("after", "100000");
    let land = chain("land", "100000").replacen("100000", "-", 1);
    format!("{RULE}panels=6\ntriggers=6\n{lag}{after}{land}")
}

/// The longest good sheet under rule 2.
fn longest() -> String {
    let row = ["-100000"; 6].join(",");
    let lines = |key: &str| format!("{key}={row}\n").repeat(6);
    let tables = ["lag", "after", "land"].map(lines).concat();
    format!("{RULE}panels=6\ntriggers=6\n{tables}last={row}\n")
}

/// Sheet and the refusal of reading, or 0.
fn reading_cases() -> Vec<(String, u32)> {
    let before = BEFORE.iter();
    let before = before.flat_map(|(front, codes)| {
        let sheets = [WHOLE, SPREAD];
        let bare = sheets.map(|sheet| sheet.strip_prefix(RULE).unwrap_or(sheet));
        bare.into_iter()
            .zip(codes)
            .map(move |(sheet, code)| (format!("{front}{sheet}"), *code))
    });
    let behind: [(&str, &[(&str, u32)]); 4] = [
        (&one_by_one("5", "-"), &BEHIND_ONE),
        (IDLE, &BEHIND_IDLE),
        (NO_LAG_FOR_EITHER, &BEHIND_NO_LAG),
        (NO_LAG_FOR_TRIGGER_2, &BEHIND_NO_LAG_FOR_TRIGGER_2),
    ];
    before
        .chain(elsewhere())
        .chain(behind_sheets(&behind))
        .chain(lagless())
        .collect()
}

/// What may stand in front of the whole case, and of its sheet under rule 2 without the rule line.
const BEFORE: [(&str, [u32; 2]); 29] = [
    ("", [0, 2]),
    ("rule=2\n", [2, 0]),
    ("rule=1\n", [2, 2]),
    ("rule=0\n", [2, 2]),
    ("rule=3\n", [2, 2]),
    ("rule=02\n", [2, 2]),
    ("rule=-\n", [2, 2]),
    ("rule=-2\n", [2, 2]),
    ("rule=+2\n", [2, 2]),
    ("rule=22\n", [2, 2]),
    ("rule=2.0\n", [2, 2]),
    ("rule=7\n", [2, 2]),
    ("rule=100001\n", [2, 2]),
    ("rule=4294967298\n", [2, 2]),
    ("rule=18446744073709551618\n", [2, 2]),
    ("rule=\n", [2, 2]),
    ("rule=2,\n", [2, 2]),
    ("rule=2,2\n", [2, 2]),
    ("rule= 2\n", [2, 2]),
    ("rule=2 \n", [2, 2]),
    ("rule=2\r\n", [2, 2]),
    ("rule=2", [2, 2]),
    ("rule=", [2, 2]),
    ("rule\n", [2, 2]),
    ("Rule=2\n", [2, 2]),
    ("rule =2\n", [2, 2]),
    ("\nrule=2\n", [2, 2]),
    ("rule=2\n\n", [2, 2]),
    ("rule=2\nrule=2\n", [2, 2]),
];

/// The rule line in another place, one of the marks' lines under rule 2, and the limits of length.
fn elsewhere() -> Vec<(String, u32)> {
    let bare = SPREAD.strip_prefix(RULE).expect("it is under rule 2");
    let before = |key: &str| bare.replacen(key, &format!("{RULE}{key}"), 1);
    let with = |line: &str| SPREAD.replacen("after=", &format!("{line}\nafter="), 1);
    let mut sheets: Vec<String> = ["triggers=", "lag=", "after="].map(before).into();
    sheets.push(format!("{bare}{RULE}"));
    sheets.extend(["floor=5,2", "due=1,2", "due=1,2\nfloor=5,2"].map(with));
    sheets.push(SPREAD.replacen("lag=", "floor=5,2\ndue=1,2\nlag=", 1));
    let mut cases: Vec<(String, u32)> = sheets.into_iter().map(|sheet| (sheet, 2)).collect();
    let padded = |front: &str, length: usize| {
        let sheet = format!("{front}{bare}");
        let left = "\n".repeat(length - sheet.len());
        sheet + &left
    };
    cases.push((longest(), 0));
    cases.push((padded(RULE, 2048), 2));
    cases.push((padded(RULE, 2049), 1));
    cases.push((padded("rule=1\n", 2049), 1));
    cases.push((RULE.to_string(), 2));
    cases.push((format!("{RULE}panels=7\n"), 3));
    cases.push((format!("{RULE}panels=7"), 2));
    cases
}

const BEHIND_ONE: [(&str, u32); 14] = [
    ("land=-\n", 0),
    ("last=0\n", 0),
    ("land=-\nlast=0\n", 0),
    ("last=-\n", 5),
    ("land=100001\n", 4),
    ("last=100001\n", 4),
    ("last=0\nland=-\n", 2),
    ("last=0\nlast=0\n", 2),
    ("floor=0\n", 2),
    ("due=0\n", 2),
    ("rule=2\n", 2),
    ("last=0\nrule=2\n", 2),
    ("land=-\nland=-\n", 2),
    ("x", 2),
];

/// A spare trigger needs no lag; one with a land entry does.
const BEHIND_IDLE: [(&str, u32); 8] = [
    ("", 0),
    ("land=-\nland=-\n", 0),
    ("land=-9\nland=-\n", 0),
    ("last=0\n", 0),
    ("land=-\nland=0\n", 14),
    ("land=-\nland=100001\n", 4),
    ("land=-\nland=0\nlast=-\n", 5),
    ("land=-\nland=0\nx", 2),
];

/// No panel has a lag, so that no trigger has one; both triggers have rules: 6 comes before 14.
const NO_LAG_FOR_EITHER: &str = "rule=2\npanels=1\ntriggers=2\nlag=-,-\nafter=-,0\nafter=-,-\n";
const BEHIND_NO_LAG: [(&str, u32); 3] = [("", 6), ("last=-\n", 5), ("x", 2)];

/// Trigger 2 has a rule and no lag.
const NO_LAG_FOR_TRIGGER_2: &str = "rule=2\npanels=1\ntriggers=2\nlag=0,-\nafter=-,-\nafter=-3,-\n";
const BEHIND_NO_LAG_FOR_TRIGGER_2: [(&str, u32); 6] = [
    ("", 14),
    ("last=0\n", 14),
    ("land=-\nland=-\n", 14),
    ("last=100001\n", 4),
    ("last=-\n", 5),
    ("x", 2),
];

/// "It refuses a trigger that is not spare and has no lag, under rule 2, as 14, after 7": by its row or its column of
/// the after lines, by the diagonal alone, and by its land line alone.
fn lagless() -> Vec<(String, u32)> {
    let idle = |first: &str, second: &str| {
        let after = format!("after={first}\nafter={second}\n");
        IDLE.replace("after=-,-\nafter=-,-\n", &after)
    };
    let in_use = [
        idle("-,0", "-,-"),
        idle("-,-", "0,-"),
        idle("-,-", "-,0"),
        idle("-,-", "-,-") + "land=-\nland=-100000\n",
        // No timing keeps the order, either.
        idle("-,-", "-,1"),
        idle("1,-", "-,0"),
    ];
    let mut cases: Vec<(String, u32)> = in_use.into_iter().map(|sheet| (sheet, 14)).collect();
    // A panel without a lag beside it: 6 comes first.
    let two_panels = "rule=2\npanels=2\ntriggers=2\nlag=0,-\nlag=-,-\nafter=-,-\nafter=-,0\n";
    cases.push((two_panels.to_string(), 6));
    cases.push((two_panels.replace("lag=-,-", "lag=5,-"), 14));
    cases.push((two_panels.replace("lag=-,-", "lag=-,5"), 0));
    // Without the rule it needs none.
    let marks = with_marks(NO_LAG_FOR_TRIGGER_2.as_bytes());
    cases.push((String::from_utf8_lossy(&marks).into_owned(), 0));
    cases
}

/// Times are tightest by the spread of landings; 14 comes before 10, 11 and 8.
fn test_cases(checks: &mut Checks) {
    const LIMIT: i64 = LONGEST_TIME;
    let example = &example_6();
    let late = &(SPREAD.to_string() + "last=2,9\n");
    let circle = &APART.replacen("after=-,-", "after=1,-", 1);
    let cases: [(&str, &[i64], _); 20] = [
        (SPREAD, &[0, 3], Ok(true)),
        (SPREAD, &[0, 2], Ok(false)),
        (SPREAD, &[-LIMIT, LIMIT], Ok(true)),
        (SPREAD, &[LIMIT, -LIMIT], Ok(false)),
        (late, &[-1, 2], Ok(true)),
        (late, &[0, 3], Ok(false)),
        (APART, &[7, 7], Ok(true)),
        (APART, &[7, 8], Ok(false)),
        (TWO_TRIGGERS, &[-LIMIT, LIMIT], Ok(true)),
        (IDLE, &[0, LIMIT], Ok(true)),
        (IDLE, &[0, LIMIT + 1], Err(11)),
        (IDLE, &[0], Err(10)),
        (example, &[0, 5, 3], Ok(true)),
        (example, &[1, 5, 3], Ok(true)),
        (example, &[2, 6, 4], Ok(false)),
        (circle, &[0, 0], Err(8)),
        (NO_LAG_FOR_TRIGGER_2, &[0, 0], Err(14)),
        (NO_LAG_FOR_TRIGGER_2, &[0], Err(14)),
        (NO_LAG_FOR_TRIGGER_2, &[0, LIMIT + 1], Err(14)),
        (NO_LAG_FOR_EITHER, &[0], Err(6)),
    ];
    for (sheet, times, wanted) in cases {
        let tested = reference::test(sheet.as_bytes(), times);
        checks.check(&format!("test of {times:?} on {sheet:?}"), tested == wanted);
    }
}

fn latest_cases(checks: &mut Checks) {
    let example = &example_6();
    let cases: [(&str, &[i64], &[i64]); 7] = [
        (SPREAD, &[0, 9], &[0, 9]),
        (SPREAD, &[0, 0], &[-3, 0]),
        (APART, &[5, 2], &[2, 2]),
        (TWO_TRIGGERS, &[LONGEST_TIME, 2], &[LONGEST_TIME, 2]),
        (IDLE, &[5, -9], &[5, -9]),
        (example, &[100, 100, 100], &[1, 5, 3]),
        (example, &[0, 0, 0], &[-3, 0, -1]),
    ];
    for (sheet, given, times) in cases {
        let found = latest(sheet.as_bytes(), given, &mut [0; 2 * CAPPED_WORDS]);
        let found = found.map(|reached| reached.times);
        checks.check(
            &format!("latest below {given:?} on {sheet:?}"),
            found == Ok(times.to_vec()),
        );
    }
    let refused: Result<Reached, NoPlan> = Err(NoPlan::Refused(14));
    let found = latest(NO_LAG_FOR_TRIGGER_2.as_bytes(), &[0], &mut []);
    checks.check("14 before 10 and 9", found == refused);
}

/// "compared sheets may follow different rules".
fn same_cases(checks: &mut Checks) {
    let mut check = |name: &str, sheets: [&str; 2], likeness| {
        let [first, second] = sheets.map(str::as_bytes);
        let compared = reference::same(first, second, &mut [0; 30], &mut [0; 30]);
        checks.check(
            name,
            compared.map(|(likeness, ..)| likeness) == Ok(likeness),
        );
    };
    let (example, bare) = (&example_6(), &without_marks(EXAMPLE_6));
    let moved = &EXAMPLE_6.replace("floor=0,0,0", "floor=9,9,9");
    let other = &EXAMPLE_6.replace("floor=0,0,0", "floor=0,3,0");
    let idle = &IDLE.replacen("after=-,-", "after=-,0", 1);
    let idle = &String::from_utf8_lossy(&with_marks(idle.as_bytes())).into_owned();
    let (alike, different) = (Likeness::Same, Likeness::Different);
    check("both under rule 2", [bare, example], alike);
    check("rule 2 and its marks", [example, EXAMPLE_6], alike);
    check("marks and their rule 2", [EXAMPLE_6, bare], alike);
    check("rule 2 and later floors", [bare, moved], alike);
    check("rule 2 and one later floor", [bare, other], different);
    check("one later floor and rule 2", [other, example], different);
    check("the whole case", [WHOLE, SPREAD], different);
    check("rule 2 and no spare", [IDLE, idle], Likeness::Unlike);
    let words = [LINE_WORDS, CAPPED_WORDS].map(|words| 2 * words);
    let [mut left, mut right] = words.map(|words| vec![77; words]);
    let lists = (EXAMPLE_6.as_bytes(), example.as_bytes());
    let compared = reference::same(lists.0, lists.1, &mut left, &mut right);
    let wanted = (alike, [2, 2], [LINE_WORDS, CAPPED_WORDS]);
    checks.check("marks, and rule 2 with caps", compared == Ok(wanted));
}

// ------------------------------------------------------- What sheets under rule 2 are like

/// Good sheets under rule 2 that `--self` wants to meet, by name.
pub const KINDS: [(&str, fn(&Survey) -> bool); 12] = [
    ("no spread", |survey| survey.deviation() == 0),
    ("a spread", |survey| survey.deviation() > 0),
    ("a spread by the order alone", |survey| {
        let mut free = survey.tables.sheet.clone();
        free.after.iter_mut().for_each(|row| row.fill(None));
        free.land.iter_mut().for_each(|row| row.fill(None));
        reference::tables(free).is_ok_and(|free| free.deviation < survey.deviation())
    }),
    ("several selections", |survey| survey.selections() > 1),
    ("a spare trigger", |survey| {
        survey.tables.sheet.spares() != 0
    }),
    ("land rules", |survey| survey.tables.sheet.has_land_rules()),
    ("a last line", |survey| survey.tables.sheet.last.is_some()),
    ("more panels than triggers", |survey| {
        survey.tables.sheet.panels > survey.tables.sheet.triggers
    }),
    ("more triggers than panels", |survey| {
        survey.tables.sheet.panels < survey.tables.sheet.triggers
    }),
    ("a largest lag of 100,000", |survey| has_due(survey, -LIMIT)),
    ("a largest lag of -100,000", |survey| has_due(survey, LIMIT)),
    ("a trigger with an absent lag", |survey| {
        let sheet = &survey.tables.sheet;
        let absent = |j: usize| sheet.lag.iter().any(|row| row[j].is_none());
        sheet.in_use().any(absent)
    }),
];

fn has_due(survey: &Survey, due: i64) -> bool {
    survey.tables.sheet.due.contains(&Some(due))
}

/// Sheets refused with 14 that `--self` wants to meet, by name, each with its marks written out.
pub const REFUSED: [(&str, fn(&Sheet) -> bool); 6] = [
    ("a diagonal rule alone", |sheet| has_only(sheet, 1)),
    ("a rule in its row alone", |sheet| has_only(sheet, 2)),
    ("a rule in its column alone", |sheet| has_only(sheet, 3)),
    ("a land rule alone", |sheet| has_only(sheet, 4)),
    ("an order that cannot be kept", |sheet| {
        reference::tables(sheet.clone()).is_err()
    }),
    ("a spare trigger beside it", |sheet| sheet.spares() != 0),
];

// ---------------------------------------------------------------- What the request says

/// What the request says of a good sheet and its lines, if it is under rule 2.
pub fn check(
    tried: &Operations,
    bytes: &[u8],
    survey: &Survey,
    lines: &[Line],
    random: &mut Random,
) -> Result<(), String> {
    let sheet = &survey.tables.sheet;
    if !sheet.by_spread {
        return Ok(());
    }
    let marks = with_marks(bytes);
    let words = lines.len() * sheet.line_words();
    check_marks(tried, [bytes, &marks], words)?;
    (0..TIMINGS).try_for_each(|_| {
        let weights: Vec<i64> = lines.iter().map(|_| random.between(-9, 9)).collect();
        let times = combined(sheet.triggers, lines, &weights, random);
        check_spread(survey, &times)?;
        check_timing(tried, [bytes, &marks], &times, words)
    })
}

/// "Steps, list and the statement on equal lists are shown for either source of marks": with these written out the
/// sheet has the same kept table and the same plan, and its timings are the same.
fn check_marks(tried: &Operations, sheets: [&[u8]; 2], words: usize) -> Result<(), String> {
    let [spread, marks] = sheets;
    let kept = sheets.map(tried.kept);
    same("kept table with marks", &kept[0], &kept[1])?;
    let [mut left, mut right] = [vec![0; words], vec![0; words]];
    let with_rule = (tried.plan)(spread, &mut left);
    let with_marks = (tried.plan)(marks, &mut right);
    same("plan with marks", &with_rule, &with_marks)?;
    same("list with marks", &left, &right)?;
    for [first, second] in [sheets, [marks, spread]] {
        let compared = (tried.same)(first, second, &mut left, &mut right);
        same("rule 2 beside its marks", &SAME, &compared.code)?;
    }
    Ok(())
}

/// "Houses now measure a cue by the spread of landings, latest less earliest": all combinations have the least.
fn check_spread(survey: &Survey, times: &[i64]) -> Result<(), String> {
    let x: Vec<Entry> = times.iter().copied().map(Some).collect();
    let spread = reference::spread(&survey.tables.sheet, &x);
    let what = format!("spread of landings of {times:?}");
    same(&what, &Some(survey.deviation()), &spread)
}

/// A timing is tested alike, and leads to the same latest one.
fn check_timing(
    tried: &Operations,
    sheets: [&[u8]; 2],
    times: &[i64],
    words: usize,
) -> Result<(), String> {
    let tested = sheets.map(|sheet| (tried.test)(sheet, times));
    same("test with marks", &tested[0], &tested[1])?;
    let latest = sheets.map(|sheet| (tried.latest)(sheet, times, &mut vec![0; words]));
    same("latest with marks", &latest[0], &latest[1])
}
