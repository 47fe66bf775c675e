//! Sheets under rule 2, which have no marks: their deviation is the spread of landings.

use tuzhelar::{CAPPED_WORDS, KeptPanel, Likeness, Refusal, SheetRefusal};
use tuzhelar::{kept, latest, plan, same, test};

/// The whole case without its marks.
const SPREAD: &str = "rule=2\npanels=2\ntriggers=2\nlag=2,0\nlag=4,1\nafter=-,-\nafter=-,-\n";
/// The marks that say the same: floors of 0, and due marks by the largest lags.
const MARKED: &str =
    "panels=2\ntriggers=2\nlag=2,0\nlag=4,1\nfloor=0,0\ndue=-4,-1\nafter=-,-\nafter=-,-\n";
const SPREAD_TEXT: &str = "deviation=1\nsteps=2\nselections=1\ncount=2\nline=-,0\nline=-3,0\n";
/// Example 6 of the paper.
const EXAMPLE_6: &str = "rule=2\npanels=3\ntriggers=3\nlag=3,-1,-\nlag=-2,2,0\nlag=-1,-,4\n\
    after=-,-,-3\nafter=2,-,-\nafter=1,-2,-\nland=-,-,-\nland=0,-,-3\nland=-1,-,-\nlast=7,7,7\n";
/// Trigger 2 is spare.
const IDLE: &str = "rule=2\npanels=1\ntriggers=2\nlag=7,-\nafter=-,-\nafter=-,-\n";
const UNTOUCHED: i32 = 7777;
const LIMIT: i64 = 1_000_000_000;

fn text(sheet: &str) -> String {
    let mut space = [0; 20 * CAPPED_WORDS];
    plan(sheet.as_bytes(), &mut space).unwrap().to_string()
}

fn refused(sheet: &str) -> Option<u32> {
    let refusal = plan(sheet.as_bytes(), &mut [0; 20 * CAPPED_WORDS]).err();
    refusal.map(Refusal::number)
}

/// The latest landing less the earliest, on the whole case.
fn spread(times: [i64; 2]) -> i64 {
    let landings = [[2, 0], [4, 1]].map(|lag| (lag[0] + times[0]).max(lag[1] + times[1]));
    (landings[0] - landings[1]).abs()
}

#[test]
fn the_spread_of_landings() {
    assert_eq!(text(SPREAD), SPREAD_TEXT);
    assert_eq!(
        text(EXAMPLE_6),
        "deviation=3\nsteps=6\nselections=2\ncount=2\nline=-5,0,-2\ncap=5\nline=-3,0,-1\ncap=4\n"
    );
    for first in -6..=6 {
        for second in -6..=6 {
            let tightest = test(SPREAD.as_bytes(), &[first, second]);
            assert_eq!(tightest, Ok(spread([first, second]) == 1));
        }
    }
    let mut space = [0; 2 * CAPPED_WORDS];
    let reached = latest(SPREAD.as_bytes(), &[5, 5], &mut space).unwrap();
    assert_eq!(reached.times(), [2, 5]);
}

#[test]
fn as_with_the_marks_that_say_the_same() {
    assert_eq!(text(MARKED), SPREAD_TEXT);
    assert_eq!(kept(SPREAD.as_bytes()), kept(MARKED.as_bytes()));
    let panels = [
        KeptPanel { byte: 2, count: 1 },
        KeptPanel { byte: 3, count: 2 },
    ];
    assert_eq!(kept(SPREAD.as_bytes()).unwrap().panels(), panels);
    let other = MARKED.replace("due=-4,-1", "due=-4,-2");
    let cases = [
        (SPREAD, MARKED, Likeness::Same),
        (MARKED, SPREAD, Likeness::Same),
        (SPREAD, SPREAD, Likeness::Same),
        (SPREAD, &other, Likeness::Different),
        (&other, SPREAD, Likeness::Different),
        (IDLE, SPREAD, Likeness::Unlike),
    ];
    for (first, second, likeness) in cases {
        let (mut left, mut right) = ([0; 20], [0; 20]);
        let compared = same(first.as_bytes(), second.as_bytes(), &mut left, &mut right);
        assert_eq!(compared.unwrap().likeness, likeness);
    }
}

#[test]
fn spare_triggers_need_no_lag() {
    assert_eq!(
        text(IDLE),
        "deviation=0\nsteps=1\nselections=1\ncount=1\nline=0,s\n"
    );
    assert_eq!(test(IDLE.as_bytes(), &[5, LIMIT]), Ok(true));
    let no_rule = format!("{IDLE}land=-\nland=-\n");
    assert_eq!(text(&no_rule), text(IDLE));
}

#[test]
fn others_do() {
    let row = IDLE.replace("after=-,-\nafter=-,-\n", "after=-,-\nafter=0,-\n");
    let column = IDLE.replace("after=-,-\nafter=-,-\n", "after=-,0\nafter=-,-\n");
    let diagonal = IDLE.replace("after=-,-\nafter=-,-\n", "after=-,-\nafter=-,0\n");
    let land = format!("{IDLE}land=-\nland=0\n");
    // No times keep this one's order: 14 comes before 8.
    let circle = IDLE.replace("after=-,-\nafter=-,-\n", "after=-,-\nafter=-,1\n");
    for sheet in [&row, &column, &diagonal, &land, &circle] {
        let (mut space, mut other) = ([UNTOUCHED; 20], [UNTOUCHED; 20]);
        let sheet = sheet.as_bytes();
        assert_eq!(plan(sheet, &mut space), Err(Refusal::NoTriggerLag));
        assert_eq!(kept(sheet), Err(Refusal::NoTriggerLag));
        // Before 10 and 11 too.
        assert_eq!(test(sheet, &[0]), Err(Refusal::NoTriggerLag));
        assert_eq!(test(sheet, &[0, LIMIT + 1]), Err(Refusal::NoTriggerLag));
        let reached = latest(sheet, &[0], &mut space).map(|found| found.triggers());
        assert_eq!(reached, Err(Refusal::NoTriggerLag));
        let refused = same(sheet, b"", &mut space, &mut other).unwrap_err();
        assert_eq!(refused, SheetRefusal::First(Refusal::NoTriggerLag));
        let refused = same(SPREAD.as_bytes(), sheet, &mut space, &mut other).unwrap_err();
        assert_eq!(refused.number(), 214);
        assert!(space.iter().chain(&other).all(|&word| word == UNTOUCHED));
    }
    // 6 before 14.
    assert_eq!(refused(&row.replace("lag=7,-", "lag=-,-")), Some(6));
}

#[test]
fn the_rule_line() {
    let rest = &SPREAD["rule=2\n".len()..];
    for value in ["1", "02", "-", "", "2,2", "+2", " 2", "2 ", "3", "-2"] {
        assert_eq!(refused(&format!("rule={value}\n{rest}")), Some(2));
        assert_eq!(refused(&format!("rule={value}\n{MARKED}")), Some(2));
    }
    assert_eq!(refused(rest), Some(2));
    assert_eq!(refused(&format!("rule=2{rest}")), Some(2));
    assert_eq!(refused(&format!("rule=2\r\n{rest}")), Some(2));
    assert_eq!(refused(&format!("rule=2\n{SPREAD}")), Some(2));
    assert_eq!(refused(&format!("{SPREAD}rule=2\n")), Some(2));
    for (at, _) in rest.match_indices('\n') {
        let (front, back) = rest.split_at(at + 1);
        assert_eq!(refused(&format!("{front}rule=2\n{back}")), Some(2));
    }
    // Marks under rule 2, one line or both.
    for marks in ["floor=0,0\n", "due=-4,-1\n", "floor=0,0\ndue=-4,-1\n"] {
        let marked = SPREAD.replacen("after=", &format!("{marks}after="), 1);
        assert_eq!(refused(&marked), Some(2));
    }
    for length in 0..SPREAD.len() {
        assert_eq!(refused(&SPREAD[..length]), Some(2));
    }
}
