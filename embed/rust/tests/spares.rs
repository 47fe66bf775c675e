//! Sheets with spare triggers, which have no lag and no rule.

use tuzhelar::{KeptPanel, LINE_WORDS, Likeness, Refusal, kept, latest, plan, same, test};

/// One panel, and two triggers of which the second is spare.
const IDLE: &str = "panels=1\ntriggers=2\nlag=0,-\nfloor=0\ndue=0,-7\nafter=-,-\nafter=-,-\n";
const IDLE_TEXT: &str = "deviation=0\nsteps=1\nselections=1\ncount=1\nline=0,s\n";
/// The whole case with a spare trigger between the others.
const BETWEEN: &str = "panels=2\ntriggers=3\nlag=2,-,0\nlag=4,-,1\nfloor=5,2\ndue=1,-99,2\n\
    after=-,-,-\nafter=-,-,-\nafter=-,-,-\n";
const LIMIT: i64 = 1_000_000_000;

/// The text of a plan, and its spare triggers.
fn planned(sheet: &str) -> (String, u8) {
    let mut space = [0; 20 * LINE_WORDS];
    let planned = plan(sheet.as_bytes(), &mut space).unwrap();
    (planned.to_string(), planned.spares)
}

/// IDLE with other lines in the place of its last, the second after line.
fn ended(end: &str) -> String {
    let (front, _) = IDLE.rsplit_once("after=").unwrap();
    format!("{front}{end}")
}

/// Five of six, all but the given one.
fn five_of_six(used: usize) -> String {
    let mut lags = ["-"; 6];
    lags[used] = "3";
    let after = "after=-,-,-,-,-,-\n".repeat(6);
    let lags = lags.join(",");
    format!("panels=1\ntriggers=6\nlag={lags}\nfloor=5\ndue=1,2,3,4,5,6\n{after}")
}

#[test]
fn a_spare_trigger_is_written_s() {
    assert_eq!(planned(IDLE), (IDLE_TEXT.to_string(), 0b10));
    let mut space = [7777; 2 * LINE_WORDS];
    let planned = plan(IDLE.as_bytes(), &mut space).unwrap();
    let line = planned.lines().next().unwrap();
    assert_eq!(line.components(), [Some(0), None]);
    assert_eq!((line.triggers(), planned.triggers()), (2, 2));
    assert_eq!((line.spares(), planned.spares), (2, 2));
    let mut words = [i32::MIN; LINE_WORDS];
    words[..2].copy_from_slice(&[2, 0]);
    assert_eq!(space[..LINE_WORDS], words);
    assert_eq!(space[LINE_WORDS..], [7777; LINE_WORDS]);
}

#[test]
fn one_entry_and_it_is_not_spare() {
    let text = |lines: &str| format!("deviation=0\nsteps=1\nselections=1\ncount=2\n{lines}");
    let (with_absent, behind) = (
        text("line=0,-\nline=0,-7\n"),
        text("line=0,-9\nline=0,-7\n"),
    );
    // On the diagonal, in the row, in the column; a land entry; a lag.
    assert_eq!(planned(&ended("after=-,0\n")), (with_absent.clone(), 0));
    assert_eq!(planned(&ended("after=-9,-\n")), (behind.clone(), 0));
    let column = IDLE.replacen("after=-,-", "after=-,0", 1);
    assert_eq!(planned(&column), (with_absent.clone(), 0));
    let land = ended("after=-,-\nland=-\nland=-9\n");
    assert_eq!(planned(&land), (behind, 0));
    let lag = IDLE.replace("lag=0,-", "lag=0,-100");
    assert_eq!(planned(&lag), (with_absent, 0));
    // Land lines without a rule.
    let no_rule = ended("after=-,-\nland=-\nland=-\n");
    assert_eq!(planned(&no_rule), (IDLE_TEXT.to_string(), 0b10));
}

#[test]
fn at_any_place() {
    let (text, spares) = planned(BETWEEN);
    assert_eq!(spares, 0b010);
    assert!(text.ends_with("count=2\nline=-1,s,0\nline=0,s,-\n"));
    for used in 0..6 {
        let (text, spares) = planned(&five_of_six(used));
        let mut line = ["s"; 6];
        line[used] = "0";
        assert_eq!(spares, 63 - (1 << used));
        // The floor, less the lag and the due mark.
        let head = format!("deviation={}\nsteps=1\nselections=1\n", 1 - used as i64);
        assert_eq!(text, format!("{head}count=1\nline={}\n", line.join(",")));
    }
}

#[test]
fn each_trigger_keeps_its_bit() {
    let panels = [
        KeptPanel { byte: 1, count: 1 },
        KeptPanel { byte: 5, count: 2 },
    ];
    assert_eq!(kept(BETWEEN.as_bytes()).unwrap().panels(), panels);
}

#[test]
fn any_time_will_do() {
    let sheet = BETWEEN.as_bytes();
    for time in [0, -99, 12_345, LIMIT, -LIMIT] {
        assert_eq!(test(sheet, &[0, time, 1]), Ok(true));
        assert_eq!(test(sheet, &[0, time, 2]), Ok(false));
        let mut space = [0; 2 * LINE_WORDS];
        let reached = latest(sheet, &[0, time, 2], &mut space).unwrap();
        assert_eq!(reached.times(), [0, time, 1]);
        let lines: Vec<_> = reached.lines().map(|line| line.to_string()).collect();
        assert_eq!(lines, ["-1,s,0", "0,s,-"]);
    }
    let beyond = [0, LIMIT + 1, 1];
    assert_eq!(test(sheet, &beyond), Err(Refusal::Time));
    assert_eq!(latest(sheet, &beyond, &mut []), Err(Refusal::Time));
    assert_eq!(test(sheet, &[0, 1]), Err(Refusal::Components));
}

#[test]
fn times_from_the_lines() {
    let mut space = [0; 2 * LINE_WORDS];
    let planned = plan(BETWEEN.as_bytes(), &mut space).unwrap();
    assert_eq!(planned.times(&[1, 0]), Some(vec![0, 0, 1]));
    for first in -3..=3 {
        let made = planned.times(&[first, 0]).unwrap();
        assert_eq!(test(BETWEEN.as_bytes(), &made), Ok(true));
    }
}

#[test]
fn compared_where_the_same_are_spare() {
    let itself = ended("after=-,0\n");
    let first = IDLE.replace("lag=0,-", "lag=-,0");
    let cases = [
        (
            IDLE,
            &IDLE.replace("due=0,-7", "due=0,100000"),
            Likeness::Same,
        ),
        (IDLE, &itself, Likeness::Unlike),
        (&itself, &IDLE.to_string(), Likeness::Unlike),
        (IDLE, &first, Likeness::Unlike),
    ];
    for (one, other, likeness) in cases {
        let (mut left, mut right) = ([0; 4 * LINE_WORDS], [0; 4 * LINE_WORDS]);
        let compared = same(one.as_bytes(), other.as_bytes(), &mut left, &mut right).unwrap();
        assert_eq!(compared.likeness, likeness);
        let (mut one_space, mut other_space) = ([0; 4 * LINE_WORDS], [0; 4 * LINE_WORDS]);
        let one = plan(one.as_bytes(), &mut one_space).unwrap();
        let other = plan(other.as_bytes(), &mut other_space).unwrap();
        assert!(compared.first_lines().eq(one.lines()));
        assert!(compared.second_lines().eq(other.lines()));
    }
}

#[test]
fn due_marks_are_read_as_any_other() {
    let refused = |due: &str| {
        let sheet = IDLE.replace("due=0,-7", due);
        plan(sheet.as_bytes(), &mut [0; LINE_WORDS]).err()
    };
    assert_eq!(refused("due=0,-"), Some(Refusal::NoDue));
    assert_eq!(refused("due=0,100001"), Some(Refusal::Range));
    assert_eq!(refused("due=0,100000"), None);
}
