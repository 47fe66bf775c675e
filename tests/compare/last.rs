//! Cases of document 02's No. 5, landings before the downbeat, as checks of the reference; what last lines can
//! be like; and what the request says of weights, caps and last moments, to which an implementation is held.

use crate::cases::{Checks, NO_SECOND_FLOOR, WHOLE, behind_sheets, long_chain, one_by_one};
use crate::cases::{sheet_of, texts_and_codes};
use crate::compare::{combined, same, test_answer};
use crate::land::{EXAMPLE_6, longest_good};
use crate::latest::{Reached, latest};
use crate::reference::{self, CAPPED_WORDS, Entry, LINE_WORDS, LONGEST_TIME, Likeness, Line};
use crate::reference::{NoPlan, Plan, Sheet, cap};
use crate::sheets::Random;
use crate::spares::IDLE;
use crate::under_test::{NO, Operations, YES};

/// What stands in a good sheet with a last line and in no other.
const LAST: &[u8] = b"last=";

/// Weights that are tried on each sheet with a last line.
const WEIGHED: usize = 4;

/// Two lines with caps 1 and 0: x(1) is at most 0, and x(2) at most 2.
fn whole() -> String {
    WHOLE.to_string() + "last=2,9\n"
}

/// All sheets named here; the comparison begins with them.
pub fn sheets() -> Vec<Vec<u8>> {
    let planned = plan_cases().into_iter().map(|(sheet, _)| sheet);
    let read = reading_cases().into_iter().map(|(sheet, _)| sheet);
    planned.chain(read).map(String::into_bytes).collect()
}

/// Every check of `compare --self` that is a case.
pub fn run(checks: &mut Checks) {
    texts_and_codes(checks, plan_cases(), reading_cases());
    let longest = longest_with_last();
    checks.check("1,133 bytes", longest.len() == 1133);
    space_cases(checks);
    test_cases(checks);
    latest_cases(checks);
    same_cases(checks);
}

/// Sheet and the planning program's text.
fn plan_cases() -> Vec<(String, &'static str)> {
    let with = |sheet: &str, last: &str| format!("{sheet}last={last}\n");
    vec![
        (
            with(&one_by_one("-"), "7"),
            "deviation=-5\nsteps=1\nselections=1\ncount=1\nline=0\ncap=2\n",
        ),
        (
            whole(),
            "deviation=2\nsteps=2\nselections=1\ncount=2\nline=-1,0\ncap=1\nline=0,-\ncap=0\n",
        ),
        (
            with(WHOLE, "-5,0"),
            "deviation=2\nsteps=2\nselections=1\ncount=2\nline=-1,0\ncap=-6\nline=0,-\ncap=-7\n",
        ),
        // The first line does not reach the second panel; the second one is held by it, though it has no floor.
        (
            with(NO_SECOND_FLOOR, "5,3"),
            "deviation=0\nsteps=1\nselections=1\ncount=2\nline=0,-\ncap=5\nline=0,0\ncap=3\n",
        ),
        (
            with(IDLE, "4"),
            "deviation=0\nsteps=1\nselections=1\ncount=1\nline=0,s\ncap=4\n",
        ),
        (
            with(EXAMPLE_6, "7,7,7"),
            "deviation=3\nsteps=6\nselections=2\ncount=2\n\
             line=-5,0,-2\ncap=5\nline=-3,0,-1\ncap=4\n",
        ),
        // The least cap that there is.
        (
            with(
                &sheet_of("1", "1", "100000", "-100000", "100000", "-"),
                "-100000",
            ),
            "deviation=-300000\nsteps=1\nselections=1\ncount=1\nline=0\ncap=-200000\n",
        ),
        // The trigger that reaches the panel comes long before the others.
        (
            with(&long_chain(), "100000"),
            "deviation=800000\nsteps=1\nselections=1\ncount=1\n\
             line=-500000,-400000,-300000,-200000,-100000,0\ncap=700000\n",
        ),
        (with(&one_by_one("1"), "7"), "refused=8\n"),
    ]
}

/// The longest good sheet that there is.
fn longest_with_last() -> String {
    format!("{}last={}\n", longest_good(), ["-100000"; 6].join(","))
}

/// Sheet and the refusal of reading, or 0: what may stand behind the after and land lines.
fn reading_cases() -> Vec<(String, u32)> {
    let one = |lag: &str, floor: &str| sheet_of("1", "1", lag, floor, "0", "-");
    let two_triggers = sheet_of("1", "2", "0,0", "0", "0,0", "-,-") + "after=-,-\n";
    let behind: [(&str, &[(&str, u32)]); 5] = [
        (&one("5", "0"), &BEHIND_ONE),
        (NO_SECOND_FLOOR, &BEHIND_TWO),
        (&two_triggers, &BEHIND_TWO_TRIGGERS),
        (&one("-", "-"), &BEHIND_NO_LAG),
        (&one("5", "-"), &BEHIND_NO_FLOOR),
    ];
    let before_after = WHOLE.replacen("after=", "last=0,0\nafter=", 1);
    let more = [(before_after, 2), (longest_with_last(), 0)];
    behind_sheets(&behind).chain(more).collect()
}

const BEHIND_ONE: [(&str, u32); 28] = [
    ("last=0\n", 0),
    ("last=100000\n", 0),
    ("last=-100000\n", 0),
    ("last=100001\n", 4),
    ("last=-100001\n", 4),
    ("last=-\n", 5),
    ("last=-0\n", 2),
    ("last=\n", 2),
    ("last=", 2),
    ("last", 2),
    ("last=0", 2),
    ("last=0\r\n", 2),
    ("Last=0\n", 2),
    ("last =0\n", 2),
    ("\nlast=0\n", 2),
    ("last=0,0\n", 2),
    ("last=0\nlast=0\n", 2),
    ("last=0\nx", 2),
    ("last=100001\nx", 4),
    ("last=-\nx", 5),
    ("land=-\nlast=0\n", 0),
    ("land=-\nlast=-\n", 5),
    ("land=-\nlast=0\nlast=0\n", 2),
    ("land=100001\nlast=-\n", 4),
    ("last=0\nland=-\n", 2),
    ("last=-\nland=100001\n", 5),
    ("last=100001\nland=x\n", 4),
    ("land=x\nlast=-\n", 2),
];

/// An item for each panel, and in the line 2 before 4 before 5.
const BEHIND_TWO: [(&str, u32); 10] = [
    ("last=0,0\n", 0),
    ("last=0\n", 2),
    ("last=0,0,0\n", 2),
    ("last=-\n", 2),
    ("last=100001\n", 2),
    ("last=0,-\n", 5),
    ("last=-,100001\n", 4),
    ("last=100001,-\n", 4),
    ("last=-,x\n", 2),
    ("last=100001,x\n", 2),
];

/// Not an item for each trigger; and no land line may be missing before it.
const BEHIND_TWO_TRIGGERS: [(&str, u32); 4] = [
    ("last=0\n", 0),
    ("last=0,0\n", 2),
    ("land=-\nlast=0\n", 2),
    ("land=-\nland=-\nlast=0\n", 0),
];

/// Bytes left over, then 6, then 7, each once the last line is read.
const BEHIND_NO_LAG: [(&str, u32); 6] = [
    ("last=0\n", 6),
    ("land=-\nlast=0\n", 6),
    ("last=100001\n", 4),
    ("last=-\n", 5),
    ("last=0\nx", 2),
    ("last=0\nlast=0\n", 2),
];
const BEHIND_NO_FLOOR: [(&str, u32); 4] = [
    ("last=0\n", 7),
    ("last=100001\n", 4),
    ("last=-\n", 5),
    ("last=0\nx", 2),
];

/// A line of such a sheet takes eight words, and 9 counts so.
fn space_cases(checks: &mut Checks) {
    let absent = i32::MIN;
    let line = |a: i32, b: i32, cap: i32| [2, a, b, absent, absent, absent, absent, cap];
    let list = [line(-1, 0, 1), line(0, absent, 0)].concat();
    let (count, line_words) = (2, CAPPED_WORDS);
    let planned = Plan {
        deviation: 2,
        steps: 2,
        selections: 1,
        count,
        spares: 0,
        line_words,
    };
    for words in 0..4 * CAPPED_WORDS {
        let mut space = vec![77; words];
        let answer = reference::plan(whole().as_bytes(), &mut space);
        let written = if words < list.len() { &[][..] } else { &list };
        let wanted = if written.is_empty() {
            Err(NoPlan::SpaceTooSmall { count, line_words })
        } else {
            Ok(planned)
        };
        let name = format!("whole case with a last line and {words} words");
        checks.check(&name, answer == wanted && space.starts_with(written));
        let rest = &space[written.len()..];
        checks.check(&name, rest.iter().all(|word| *word == 77));
    }
}

/// Tightest times are tested with yes as long as every landing is in time.
fn test_cases(checks: &mut Checks) {
    let whole = &whole();
    let idle = &format!("{IDLE}last=4\n");
    let second = &format!("{NO_SECOND_FLOOR}last=5,3\n");
    let circle = &(one_by_one("1") + "last=7\n");
    let cases: [(&str, &[i64], _); 13] = [
        (whole, &[0, 1], Ok(true)),
        (whole, &[0, 0], Ok(true)),
        (whole, &[1, 1], Ok(false)),
        (whole, &[1, 0], Ok(false)),
        (whole, &[0, 2], Ok(false)),
        (whole, &[-LONGEST_TIME; 2], Ok(true)),
        (second, &[3, 3], Ok(true)),
        (second, &[5, 3], Ok(true)),
        (second, &[5, 4], Ok(false)),
        // A spare trigger lands nowhere.
        (idle, &[4, LONGEST_TIME], Ok(true)),
        (idle, &[5, -LONGEST_TIME], Ok(false)),
        (circle, &[0], Err(8)),
        (whole, &[0, LONGEST_TIME + 1], Err(11)),
    ];
    for (sheet, times, wanted) in cases {
        let tested = reference::test(sheet.as_bytes(), times);
        checks.check(&format!("test of {times:?} on {sheet:?}"), tested == wanted);
    }
}

/// The latest times are lowered by a last moment, and a spare one is not.
fn latest_cases(checks: &mut Checks) {
    let whole = &whole();
    let idle = &format!("{IDLE}last=4\n");
    let second = &format!("{NO_SECOND_FLOOR}last=5,3\n");
    let cases: [(&str, &[i64], &[i64]); 7] = [
        (whole, &[5, 9], &[0, 1]),
        (whole, &[LONGEST_TIME; 2], &[0, 1]),
        (whole, &[-3, 9], &[-3, -2]),
        (whole, &[9, -3], &[0, -3]),
        (second, &[9, 9], &[5, 3]),
        (idle, &[9, 9], &[4, 9]),
        (idle, &[-9, LONGEST_TIME], &[-9, LONGEST_TIME]),
    ];
    for (sheet, given, times) in cases {
        let found = latest(sheet.as_bytes(), given, &mut [0; 2 * CAPPED_WORDS]);
        let wanted = Reached {
            count: if sheet == idle { 1 } else { 2 },
            line_words: CAPPED_WORDS,
            times: times.to_vec(),
        };
        checks.check(
            &format!("latest below {given:?} on {sheet:?}"),
            found == Ok(wanted),
        );
    }
}

/// "equal timings do not mean equal caps": lists are compared without caps.
fn same_cases(checks: &mut Checks) {
    let mut check = |name: &str, sheets: [&str; 2], line_words: [usize; 2], likeness| {
        let [first, second] = sheets.map(str::as_bytes);
        let [mut left, mut right] = line_words.map(|words| vec![77; 2 * words]);
        let compared = reference::same(first, second, &mut left, &mut right);
        checks.check(name, compared == Ok((likeness, [2, 2], line_words)));
    };
    let (one, other) = (whole(), WHOLE.to_string() + "last=-5,0\n");
    let later = WHOLE.replace("due=1,2", "due=1,3") + "last=2,9\n";
    let (capped, bare) = (CAPPED_WORDS, LINE_WORDS);
    let (same, different) = (Likeness::Same, Likeness::Different);
    check("other caps", [&one, &other], [capped, capped], same);
    check("caps and none", [&one, WHOLE], [capped, bare], same);
    check("no caps and some", [WHOLE, &one], [bare, capped], same);
    check("other lines", [&one, &later], [capped, capped], different);
    let two = [WHOLE, &later];
    check("no caps, other lines", two, [bare, capped], different);
}

// ---------------------------------------------------------------- What last lines are like

/// Sheets with a last line that `--self` wants to meet, by name, with their lines.
pub const KINDS: [Kind; 8] = [
    ("land rules", |sheet, _| sheet.has_land_rules()),
    ("a spare trigger", |sheet, _| sheet.spares() != 0),
    ("a cap below 0", |sheet, lines| {
        lines.iter().any(|line| cap(sheet, line) < Some(0))
    }),
    ("a cap above 0", |sheet, lines| {
        lines.iter().any(|line| cap(sheet, line) > Some(0))
    }),
    ("unlike caps", |sheet, lines| {
        let first = cap(sheet, &lines[0]);
        lines.iter().any(|line| cap(sheet, line) != first)
    }),
    ("a panel without a floor that decides", |sheet, lines| {
        let floorless = |i: usize| sheet.floor[i].is_none();
        lines.iter().any(|line| decides(sheet, line, floorless))
    }),
    ("two panels that decide together", |sheet, lines| {
        let alone = |line| (0..sheet.panels).any(|i| decides(sheet, line, |k| k == i));
        !lines.iter().all(alone)
    }),
    ("a panel that a line does not reach", |sheet, lines| {
        let reaches = |lags: &[Entry], line: &Line| lags.iter().zip(line).any(both_present);
        let all = |line: &Line| sheet.lag.iter().all(|lags| reaches(lags, line));
        !lines.iter().all(all)
    }),
];

type Kind = (&'static str, fn(&Sheet, &[Line]) -> bool);

/// Whether a line's cap would be larger if some panels had no last moment.
fn decides(sheet: &Sheet, line: &Line, panels: impl Fn(usize) -> bool) -> bool {
    cap(sheet, line) < cap(&later(sheet, panels), line)
}

/// A sheet with moments at some panels that are as good as none.
pub fn later(sheet: &Sheet, panels: impl Fn(usize) -> bool) -> Sheet {
    const LATE: Entry = Some(1 << 30);
    let mut sheet = sheet.clone();
    for (i, last) in sheet.last.iter_mut().flatten().enumerate() {
        if panels(i) {
            *last = LATE;
        }
    }
    sheet
}

fn both_present((lag, component): (&Entry, &Entry)) -> bool {
    lag.is_some() && component.is_some()
}

// ---------------------------------------------------------------- What the request says

/// What the request says of a good sheet and its lines, if it has a last line.
pub fn check(
    tried: &Operations,
    bytes: &[u8],
    sheet: &Sheet,
    lines: &[Line],
    random: &mut Random,
) -> Result<(), String> {
    let last = bytes.windows(LAST.len()).position(|at| at == LAST);
    let Some(bare) = last.map(|at| &bytes[..at]) else {
        return Ok(());
    };
    check_bare(tried, [bytes, bare], lines.len())?;
    (0..WEIGHED).try_for_each(|_| check_weights(tried, [bytes, bare], sheet, lines, random))
}

/// "Deviation and lines ignore the last moments": without its last line a sheet has the same plan, but for
/// the caps.
fn check_bare(tried: &Operations, [sheet, bare]: [&[u8]; 2], count: usize) -> Result<(), String> {
    let (mut capped, mut uncapped) = (vec![0; count * CAPPED_WORDS], vec![0; count * LINE_WORDS]);
    let with = (tried.plan)(sheet, &mut capped).words;
    let without = (tried.plan)(bare, &mut uncapped).words;
    same("plan without the last line", &with[..5], &without[..5])?;
    let line_words = [CAPPED_WORDS, LINE_WORDS].map(|words| words as i64);
    same("words of a line", &line_words, &[with[5], without[5]])?;
    let lines = capped.chunks_exact(CAPPED_WORDS);
    let lines = lines.flat_map(|words| &words[..LINE_WORDS]).copied();
    same(
        "lines without the last line",
        &lines.collect::<Vec<i32>>(),
        &uncapped,
    )
}

/// "A timing keeps the order, has the least deviation and meets every last moment exactly when it combines
/// all the lines with whole-number weights no greater than their caps": by the meaning and by the test
/// operation. With a greater weight the times are tightest, and the line itself is not in time.
fn check_weights(
    tried: &Operations,
    [sheet, bare]: [&[u8]; 2],
    read: &Sheet,
    lines: &[Line],
    random: &mut Random,
) -> Result<(), String> {
    let caps: Vec<i64> = lines.iter().filter_map(|line| cap(read, line)).collect();
    let spread = *random.pick(&[0, 1, 3, 100]);
    let weights = caps.iter().map(|cap| cap - random.between(0, spread));
    let mut weights: Vec<i64> = weights.collect();
    let above = random.chance(50);
    if above {
        let at = random.below(caps.len());
        weights[at] = caps[at] + 1;
    }
    let times = combined(read.triggers, lines, &weights, random);
    let in_time = if above { NO } else { YES };
    for (sheet, wanted) in [(bare, YES), (sheet, in_time)] {
        let what = format!("test of {times:?}, weights {weights:?}, caps {caps:?}");
        same(&what, &wanted, &test_answer(reference::test(sheet, &times)))?;
        same(&what, &wanted, &(tried.test)(sheet, &times))?;
    }
    Ok(())
}

/// A weight at a cap, beside it, or below.
pub fn weight_about(cap: i64, spread: i64, random: &mut Random) -> i64 {
    match random.below(8) {
        0..=3 => cap,
        4 => cap + 1,
        5 => cap - 1,
        _ => cap - random.between(0, spread),
    }
}
