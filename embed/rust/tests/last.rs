//! Sheets with a last line: a cap for each line, and times in time.

use tuzhelar::{CAPPED_WORDS, LINE_WORDS, Likeness, Refusal, SheetRefusal};
use tuzhelar::{kept, latest, plan, same, test};

const WHOLE: &str =
    "panels=2\ntriggers=2\nlag=2,0\nlag=4,1\nfloor=5,2\ndue=1,2\nafter=-,-\nafter=-,-\n";
const LAST: &str =
    "panels=2\ntriggers=2\nlag=2,0\nlag=4,1\nfloor=5,2\ndue=1,2\nafter=-,-\nafter=-,-\nlast=6,6\n";
/// Example 6 of the paper, its rule written as marks.
const EXAMPLE_6: &str = "panels=3\ntriggers=3\nlag=3,-1,-\nlag=-2,2,0\nlag=-1,-,4\nfloor=0,0,0\n\
    due=-3,-2,-4\nafter=-,-,-3\nafter=2,-,-\nafter=1,-2,-\nland=-,-,-\nland=0,-,-3\nland=-1,-,-\n\
    last=7,7,7\n";
/// Panel 2 has no floor, and trigger 1 does not reach it.
const NO_FLOOR: &str = "panels=2\ntriggers=2\nlag=0,-\nlag=-,0\nfloor=0,-\ndue=0,0\nafter=-,-\n\
    after=-,-\nlast=10,3\n";
/// Trigger 2 is spare.
const IDLE: &str =
    "panels=1\ntriggers=2\nlag=0,-\nfloor=0\ndue=0,-7\nafter=-,-\nafter=-,-\nlast=4\n";
const UNTOUCHED: i32 = 7777;
const LIMIT: i64 = 1_000_000_000;

/// The text of a plan without its first three lines, which last moments do not change.
fn lines(sheet: &str) -> String {
    let mut space = [0; 20 * CAPPED_WORDS];
    let text = plan(sheet.as_bytes(), &mut space).unwrap().to_string();
    text.splitn(4, '\n').last().unwrap().to_string()
}

fn refused(sheet: &str) -> Option<u32> {
    let refusal = plan(sheet.as_bytes(), &mut [0; 20 * CAPPED_WORDS]).err();
    refusal.map(Refusal::number)
}

#[test]
fn each_line_has_its_cap() {
    let mut space = [0; 100];
    assert_eq!(
        plan(EXAMPLE_6.as_bytes(), &mut space).unwrap().to_string(),
        "deviation=3\nsteps=6\nselections=2\ncount=2\nline=-5,0,-2\ncap=5\nline=-3,0,-1\ncap=4\n"
    );
    assert_eq!(lines(LAST), "count=2\nline=-1,0\ncap=3\nline=0,-\ncap=2\n");
    assert_eq!(
        lines(NO_FLOOR),
        "count=2\nline=0,-\ncap=10\nline=0,0\ncap=3\n"
    );
    assert_eq!(lines(IDLE), "count=1\nline=0,s\ncap=4\n");
    let early = LAST.replace("last=6,6", "last=-100000,0");
    assert_eq!(
        lines(&early),
        "count=2\nline=-1,0\ncap=-100001\nline=0,-\ncap=-100002\n"
    );
}

#[test]
fn the_rest_is_as_without() {
    let (mut space, mut other) = ([0; 100], [0; 100]);
    let with = plan(LAST.as_bytes(), &mut space).unwrap();
    let without = plan(WHOLE.as_bytes(), &mut other).unwrap();
    assert_eq!(
        (with.deviation, with.steps, with.selections, with.count),
        (
            without.deviation,
            without.steps,
            without.selections,
            without.count
        )
    );
    for (one, other) in with.lines().zip(without.lines()) {
        assert_eq!(one.components(), other.components());
        assert_eq!(other.cap(), None);
    }
    assert_eq!(kept(LAST.as_bytes()), kept(WHOLE.as_bytes()));
}

#[test]
fn room_by_eight_words() {
    for length in 0..40 {
        let mut space = vec![UNTOUCHED; length];
        let planned = plan(LAST.as_bytes(), &mut space).map(|planned| planned.count);
        let written = if length < 2 * CAPPED_WORDS {
            let words = 16;
            assert_eq!(planned, Err(Refusal::Space { count: 2, words }));
            0
        } else {
            assert_eq!(planned, Ok(2));
            16
        };
        assert!(space[written..].iter().all(|&word| word == UNTOUCHED));
        let reached = latest(LAST.as_bytes(), &[0, 0], &mut space).map(|found| found.times().len());
        assert_eq!(reached.is_ok(), written > 0);
    }
}

#[test]
fn weights_up_to_the_caps() {
    let mut space = [0; 2 * CAPPED_WORDS];
    let planned = plan(LAST.as_bytes(), &mut space).unwrap();
    for first in -3..=6 {
        for second in -3..=6 {
            let times = planned.times(&[first, second]).unwrap();
            let within = first <= 3 && second <= 2;
            assert_eq!(test(LAST.as_bytes(), &times), Ok(within));
            assert_eq!(test(WHOLE.as_bytes(), &times), Ok(true));
        }
    }
    assert_eq!(test(LAST.as_bytes(), &[0, 2]), Ok(false));
    assert_eq!(test(IDLE.as_bytes(), &[4, LIMIT]), Ok(true));
    assert_eq!(test(IDLE.as_bytes(), &[5, 0]), Ok(false));
}

#[test]
fn the_latest_in_time() {
    let cases = [
        (LAST, [5, 9], [2, 3]),
        (LAST, [2, 3], [2, 3]),
        (LAST, [0, 9], [0, 1]),
        (LAST, [LIMIT, LIMIT], [2, 3]),
        (NO_FLOOR, [9, 9], [9, 3]),
        (IDLE, [9, LIMIT], [4, LIMIT]),
    ];
    for (sheet, wished, wanted) in cases {
        let (mut space, mut other) = ([0; 2 * CAPPED_WORDS], [0; 2 * CAPPED_WORDS]);
        let reached = latest(sheet.as_bytes(), &wished, &mut space).unwrap();
        assert_eq!(reached.times(), wanted);
        assert_eq!(test(sheet.as_bytes(), &wanted), Ok(true));
        let planned = plan(sheet.as_bytes(), &mut other).unwrap();
        assert!(reached.lines().eq(planned.lines()));
        assert!(reached.lines().all(|line| line.cap().is_some()));
    }
}

#[test]
fn compared_with_caps_left_out() {
    let later = LAST.replace("last=6,6", "last=99,-8");
    for (first, second) in [(LAST, WHOLE), (WHOLE, LAST), (LAST, &later)] {
        let (mut left, mut right) = ([0; 30], [0; 30]);
        let compared = same(first.as_bytes(), second.as_bytes(), &mut left, &mut right).unwrap();
        assert_eq!(compared.likeness, Likeness::Same);
        let (mut one, mut other) = ([0; 30], [0; 30]);
        let first = plan(first.as_bytes(), &mut one).unwrap();
        let second = plan(second.as_bytes(), &mut other).unwrap();
        assert!(compared.first_lines().eq(first.lines()));
        assert!(compared.second_lines().eq(second.lines()));
    }
    let different = LAST.replace("due=1,2", "due=1,3");
    let (mut left, mut right) = ([0; 30], [0; 30]);
    let compared = same(LAST.as_bytes(), different.as_bytes(), &mut left, &mut right);
    assert_eq!(compared.unwrap().likeness, Likeness::Different);
    // Room is by each sheet's own words.
    let (mut left, mut right) = ([0; 2 * LINE_WORDS], [0; 2 * CAPPED_WORDS - 1]);
    let refused = same(WHOLE.as_bytes(), LAST.as_bytes(), &mut left, &mut right);
    let words = 16;
    assert_eq!(
        refused,
        Err(SheetRefusal::Second(Refusal::Space { count: 2, words }))
    );
}

#[test]
fn refusals_of_the_last_line() {
    let ended = |end: &str| refused(&format!("{WHOLE}{end}"));
    for length in WHOLE.len()..=LAST.len() {
        let whole = [WHOLE.len(), LAST.len()].contains(&length);
        let wanted = if whole { None } else { Some(2) };
        assert_eq!(refused(&LAST[..length]), wanted);
    }
    assert_eq!(ended("last=6\n"), Some(2));
    assert_eq!(ended("last=6,6,6\n"), Some(2));
    assert_eq!(ended("last=6,6\nlast=6,6\n"), Some(2));
    assert_eq!(ended("last=6,6\nland=-,-\nland=-,-\n"), Some(2));
    assert_eq!(ended("land=-,-\nlast=6,6\n"), Some(2));
    assert_eq!(ended("land=-,-\nland=-,-\nlast=6,6\n"), None);
    assert_eq!(ended("last=100000,-100000\n"), None);
    assert_eq!(ended("last=-,x\n"), Some(2));
    assert_eq!(ended("last=-,100001\n"), Some(4));
    assert_eq!(ended("last=6,-\n"), Some(5));
}
