//! Cases of document 02's No. 4, spare triggers, as checks of the reference; what the triggers of a sheet
//! can be like; and a plan that is worked out over the others alone, to which the reference is held.

use crate::cases::{Checks, WHOLE, texts_and_codes};
use crate::latest::{Reached, latest};
use crate::reference::{self, Entry, LINE_WORDS, Likeness, Line, Plan, SIZE, Sheet, Survey, Table};

/// Nothing is about trigger 2 but its due mark.
pub const IDLE: &str = "panels=1\ntriggers=2\nlag=0,-\nfloor=0\ndue=0,-7\nafter=-,-\nafter=-,-\n";
const IDLE_TEXT: &str = "deviation=0\nsteps=1\nselections=1\ncount=1\nline=0,s\n";
/// What is planned where trigger 2 is in use and held by its due mark alone.
const HELD_TEXT: &str = "deviation=0\nsteps=1\nselections=1\ncount=2\nline=0,-\nline=0,-7\n";
/// What is planned where trigger 2 comes 2 after trigger 1.
const AFTER_TEXT: &str = "deviation=9\nsteps=1\nselections=1\ncount=1\nline=-2,0\n";

/// Six triggers, of which the fourth alone reaches the panel.
const FIVE_OF_SIX: &str = "\
panels=1
triggers=6
lag=-,-,-,5,-,-
floor=0
due=100000,8,7,0,-1,-100000
after=-,-,-,-,-,-
after=-,-,-,-,-,-
after=-,-,-,-,-,-
after=-,-,-,-,-,-
after=-,-,-,-,-,-
after=-,-,-,-,-,-
";

/// A rule for another panel stands in trigger 1's land line; trigger 2's is all absent.
const PANEL_2: &str = "\
panels=2
triggers=2
lag=0,-
lag=1,-
floor=0,-
due=0,-7
after=-,-
after=-,-
land=-,-5
land=-,-
";

/// The whole case with idle triggers: which of its triggers each one is, `-` for an idle one; the lines, and
/// the kept triggers of each panel.
const WITH_IDLE: [(&str, &str, [u8; 2]); 6] = [
    ("-12", "line=s,-1,0\nline=s,0,-\n", [2, 6]),
    ("1-2", "line=-1,s,0\nline=0,s,-\n", [1, 5]),
    ("12-", "line=-1,0,s\nline=0,-,s\n", [1, 3]),
    ("-1-2", "line=s,-1,s,0\nline=s,0,s,-\n", [2, 10]),
    ("1---2", "line=-1,s,s,s,0\nline=0,s,s,s,-\n", [1, 17]),
    ("--12--", "line=s,s,-1,0,s,s\nline=s,s,0,-,s,s\n", [4, 12]),
];

/// The whole case with idle triggers, whose due marks are out of all proportion.
fn whole_with(pattern: &str) -> String {
    let items = |one: &str, two: &str, idle: &str| {
        let item = |which: char| match which {
            '1' => one.to_string(),
            '2' => two.to_string(),
            _ => idle.to_string(),
        };
        pattern.chars().map(item).collect::<Vec<_>>().join(",")
    };
    let (n, after) = (pattern.len(), items("-", "-", "-"));
    let (first, second) = (items("2", "0", "-"), items("4", "1", "-"));
    let due = items("1", "2", "-100000");
    let after = format!("after={after}\n").repeat(n);
    format!("panels=2\ntriggers={n}\nlag={first}\nlag={second}\nfloor=5,2\ndue={due}\n{after}")
}

/// The idle sheet with other after lines.
fn with_after(rows: [&str; 2]) -> String {
    let [first, second] = rows;
    let after = format!("after={first}\nafter={second}\n");
    IDLE.replace("after=-,-\nafter=-,-\n", &after)
}

/// All sheets named here; the comparison begins with them.
pub fn sheets() -> Vec<Vec<u8>> {
    let planned = plan_cases().into_iter().map(|(sheet, _)| sheet);
    let whole = WITH_IDLE.iter().map(|(pattern, ..)| whole_with(pattern));
    let read = reading_cases().into_iter().map(|(sheet, _)| sheet);
    let all = planned.chain(whole).chain(read);
    all.map(String::into_bytes).collect()
}

/// Every check of `compare --self` that is a case.
pub fn run(checks: &mut Checks) {
    texts_and_codes(checks, plan_cases(), reading_cases());
    whole_cases(checks);
    word_cases(checks);
    test_cases(checks);
    latest_cases(checks);
    same_cases(checks);
}

/// Sheet and the planning program's text.
fn plan_cases() -> Vec<(String, &'static str)> {
    let with_land = |lines: &str| IDLE.to_string() + lines;
    let five_of_six = "deviation=-5\nsteps=1\nselections=1\ncount=1\nline=s,s,s,0,s,s\n";
    vec![
        (IDLE.to_string(), IDLE_TEXT),
        // A rule that asks nothing is a rule.
        (with_after(["-,-", "-,0"]), HELD_TEXT),
        (with_after(["-,-", "-,-9"]), HELD_TEXT),
        (with_after(["-,-100", "-,-"]), HELD_TEXT),
        (
            with_after(["-,9", "-,-"]),
            "deviation=0\nsteps=2\nselections=2\ncount=2\nline=0,-\nline=0,-9\n",
        ),
        (with_after(["-,-", "2,-"]), AFTER_TEXT),
        (with_land("land=-\nland=2\n"), AFTER_TEXT),
        (with_land("land=-\nland=-\n"), IDLE_TEXT),
        (with_land("land=-3\nland=-\n"), IDLE_TEXT),
        (PANEL_2.to_string(), IDLE_TEXT),
        (with_after(["1,-", "-,-"]), "refused=8\n"),
        (FIVE_OF_SIX.to_string(), five_of_six),
    ]
}

/// Sheet and the refusal of reading: a spare trigger's due mark is read as any other.
fn reading_cases() -> Vec<(String, u32)> {
    let due = |mark: &str| IDLE.replace("-7", mark);
    vec![
        (due("100000"), 0),
        (due("-100000"), 0),
        (due("100001"), 4),
        (due("-"), 5),
        (due("x"), 2),
        (IDLE.replace("lag=0,-", "lag=-,-"), 6),
        (IDLE.replace("floor=0", "floor=-"), 7),
    ]
}

/// Wherever the spare triggers are, the plan is the whole case's with each component in its place, and so
/// are the kept triggers.
fn whole_cases(checks: &mut Checks) {
    for (pattern, lines, [first, second]) in WITH_IDLE {
        let sheet = whole_with(pattern);
        let plan = reference::plan_text(sheet.as_bytes());
        let planned = format!("deviation=2\nsteps=2\nselections=1\ncount=2\n{lines}");
        checks.check(&format!("plan, {pattern}"), plan == planned);
        let kept = reference::kept_text(sheet.as_bytes());
        let table =
            format!("deviation=2\nkept={first},1\nkept={second},2\nsteps=2\nselections=1\n");
        checks.check(&format!("kept, {pattern}"), kept == table);
    }
}

/// In the lent space the first word stays the number of triggers, and a spare component is absent.
fn word_cases(checks: &mut Checks) {
    let absent = i32::MIN;
    let mut space = [77; LINE_WORDS + 3];
    let planned = reference::plan(IDLE.as_bytes(), &mut space);
    let wanted = Plan {
        deviation: 0,
        steps: 1,
        selections: 1,
        count: 1,
        spares: 2,
        line_words: LINE_WORDS,
    };
    let line = [2, 0, absent, absent, absent, absent, absent];
    let left = space[..LINE_WORDS] == line && space[LINE_WORDS..] == [77; 3];
    checks.check("words of 0,s", planned == Ok(wanted) && left);
    let six = reference::plan(FIVE_OF_SIX.as_bytes(), &mut [0; LINE_WORDS]);
    let spares = six.map(|plan| plan.spares);
    checks.check("five of six", spares == Ok(0b11_0111));
}

/// A spare place takes any permitted number, and no other.
fn test_cases(checks: &mut Checks) {
    const LIMIT: i64 = reference::LONGEST_TIME;
    let held = &with_after(["-,-", "-,0"]);
    let circle = &with_after(["1,-", "-,-"]);
    let between = &whole_with("1-2");
    let cases: [(&str, &[i64], _); 14] = [
        (IDLE, &[0, -7], Ok(true)),
        (IDLE, &[5, 6], Ok(true)),
        (IDLE, &[-LIMIT, LIMIT], Ok(true)),
        (IDLE, &[LIMIT, -LIMIT], Ok(true)),
        (IDLE, &[0, LIMIT + 1], Err(11)),
        (IDLE, &[0, i64::MIN], Err(11)),
        (IDLE, &[0], Err(10)),
        (IDLE, &[0, 0, 0], Err(10)),
        (circle, &[0, LIMIT + 1], Err(11)),
        (circle, &[0, LIMIT], Err(8)),
        (held, &[0, -7], Ok(true)),
        (held, &[0, -6], Ok(false)),
        (between, &[0, LIMIT, 1], Ok(true)),
        (between, &[0, -LIMIT, 2], Ok(false)),
    ];
    for (sheet, times, wanted) in cases {
        let tested = reference::test(sheet.as_bytes(), times);
        checks.check(&format!("test of {times:?} on {sheet:?}"), tested == wanted);
    }
}

/// A spare place has the number that was given.
fn latest_cases(checks: &mut Checks) {
    const LIMIT: i64 = reference::LONGEST_TIME;
    let held = &with_after(["-,-", "-,0"]);
    let between = &whole_with("1-2");
    let cases: [(&str, &[i64], &[i64]); 6] = [
        (IDLE, &[5, 9], &[5, 9]),
        (IDLE, &[-LIMIT, LIMIT], &[-LIMIT, LIMIT]),
        (held, &[5, 9], &[5, -2]),
        (between, &[0, 7, 2], &[0, 7, 1]),
        (between, &[0, -LIMIT, LIMIT], &[0, -LIMIT, 1]),
        (between, &[5, LIMIT, -3], &[5, LIMIT, -3]),
    ];
    for (sheet, given, times) in cases {
        let found = latest(sheet.as_bytes(), given, &mut [0; 2 * LINE_WORDS]);
        let count = if sheet == IDLE { 1 } else { 2 };
        let wanted = Reached {
            count,
            line_words: LINE_WORDS,
            times: times.to_vec(),
        };
        checks.check(
            &format!("latest below {given:?} on {sheet:?}"),
            found == Ok(wanted),
        );
    }
}

/// "Two sheets may be compared for equal lists only where the same triggers are spare."
fn same_cases(checks: &mut Checks) {
    let mut check = |name: &str, sheets: [&str; 2], likeness, counts| {
        let [first, second] = sheets.map(str::as_bytes);
        let compared = reference::same(first, second, &mut [0; 30], &mut [0; 30]);
        let wanted = (likeness, counts, [LINE_WORDS; 2]);
        checks.check(name, compared == Ok(wanted));
    };
    let other_due = IDLE.replace("-7", "100000");
    let held = with_after(["-,-", "-,0"]);
    let tied = IDLE.replace("lag=0,-", "lag=0,0").replace("-7", "0");
    let other_place = IDLE.replace("lag=0,-", "lag=-,0");
    let with_land = IDLE.to_string() + "land=-\nland=-\n";
    let (between, last) = (whole_with("1-2"), whole_with("12-"));
    let later = between.replace("due=1,", "due=0,");
    let (same, different, unlike) = (Likeness::Same, Likeness::Different, Likeness::Unlike);
    check("another spare due mark", [IDLE, &other_due], same, [1, 1]);
    check(
        "land lines that ask nothing",
        [IDLE, &with_land],
        same,
        [1, 1],
    );
    check("another due mark", [&between, &later], different, [2, 2]);
    check("no spare", [IDLE, &held], unlike, [1, 2]);
    // Every timing is tightest on both.
    check("no spare, the same timings", [IDLE, &tied], unlike, [1, 2]);
    check("another spare", [IDLE, &other_place], unlike, [1, 1]);
    check("a later spare", [&between, &last], unlike, [2, 2]);
    check("a trigger more", [WHOLE, &last], unlike, [2, 2]);
}

// ---------------------------------------------------------------- What the triggers are like

/// Sheets that `--self` wants to meet, by name.
pub const KINDS: [(&str, fn(&Sheet) -> bool); 10] = [
    ("a spare trigger first", |sheet| sheet.is_spare(0)),
    ("a spare trigger last", |sheet| {
        sheet.is_spare(sheet.triggers - 1)
    }),
    ("a spare trigger between", has_one_between),
    ("five of six triggers spare", |sheet| {
        sheet.spares().count_ones() == 5
    }),
    ("a spare trigger beside land rules", |sheet| {
        sheet.spares() != 0 && sheet.has_land_rules()
    }),
    ("a trigger with a lag alone", |sheet| has_only(sheet, 0)),
    ("a trigger with a diagonal rule alone", |sheet| {
        has_only(sheet, 1)
    }),
    ("a trigger with a rule in its row alone", |sheet| {
        has_only(sheet, 2)
    }),
    ("a trigger with a rule in its column alone", |sheet| {
        has_only(sheet, 3)
    }),
    ("a trigger with a land rule alone", |sheet| {
        has_only(sheet, 4)
    }),
];

fn has_one_between(sheet: &Sheet) -> bool {
    let used: Vec<usize> = sheet.in_use().collect();
    used.windows(2).any(|pair| pair[1] > pair[0] + 1)
}

/// Whether some trigger has entries of one kind and no other: lags, the diagonal after entry, those of its
/// row, of its column, land entries.
pub fn has_only(sheet: &Sheet, kind: usize) -> bool {
    let mut only = [false; 5];
    only[kind] = true;
    (0..sheet.triggers).any(|j| kinds_of_entries(sheet, j) == only)
}

fn kinds_of_entries(sheet: &Sheet, j: usize) -> [bool; 5] {
    let others = || (0..sheet.triggers).filter(move |&i| i != j);
    [
        sheet.lag.iter().any(|row| row[j].is_some()),
        sheet.after[j][j].is_some(),
        others().any(|i| sheet.after[j][i].is_some()),
        others().any(|i| sheet.after[i][j].is_some()),
        sheet.land[j].iter().any(Option::is_some),
    ]
}

// ---------------------------------------------------------------- Over the others alone

/// "Plans are worked out over the others": the sheet that has these alone gives the same Δ, steps and
/// selections, and the same kept triggers and lines once each trigger is put in its place.
pub fn check_over_the_others(survey: &Survey, lines: &[Line]) -> Result<(), String> {
    let sheet = &survey.tables.sheet;
    let places: Vec<usize> = sheet.in_use().collect();
    if places.len() == sheet.triggers {
        return Ok(());
    }
    let alone = reference::tables(of_triggers(sheet, &places)).map(reference::walked);
    let alone = alone.map_err(|number| format!("over the others alone refused with {number}"))?;
    let numbers = |of: &Survey| (of.deviation(), of.walk.steps, of.selections());
    let laid_lines: Vec<Line> = alone
        .lines()
        .iter()
        .map(|l| laid(l, &places, None))
        .collect();
    let laid_kept = alone.tables.kept.map(|row| laid(&row, &places, false));
    if numbers(&alone) != numbers(survey) || laid_kept != survey.tables.kept || laid_lines != lines
    {
        return Err("another plan over the others alone".to_string());
    }
    Ok(())
}

/// The sheet of some triggers alone.
fn of_triggers(sheet: &Sheet, places: &[usize]) -> Sheet {
    let items = |row: &Vec<Entry>| places.iter().map(|&j| row[j]).collect();
    let rows = |table: &Table| places.iter().map(|&j| table[j].clone()).collect::<Table>();
    Sheet {
        by_spread: sheet.by_spread,
        panels: sheet.panels,
        triggers: places.len(),
        lag: sheet.lag.iter().map(items).collect(),
        floor: sheet.floor.clone(),
        due: items(&sheet.due),
        after: rows(&sheet.after).iter().map(items).collect(),
        land: rows(&sheet.land),
        last: sheet.last.clone(),
    }
}

/// Each component at the place of its trigger, and the others as for no trigger.
fn laid<T: Copy>(packed: &[T; SIZE], places: &[usize], none: T) -> [T; SIZE] {
    let mut laid = [none; SIZE];
    for (k, &place) in places.iter().enumerate() {
        laid[place] = packed[k];
    }
    laid
}
