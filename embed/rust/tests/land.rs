//! Sheets with land lines, which make triggers wait for panels.

use tuzhelar::{LINE_WORDS, Refusal, kept, latest, plan, same, test};

const WHOLE: &str =
    "panels=2\ntriggers=2\nlag=2,0\nlag=4,1\nfloor=5,2\ndue=1,2\nafter=-,-\nafter=-,-\n";
/// One panel, and two triggers: the second waits for the panel, which the first alone reaches after 3.
const WAITING: &str =
    "panels=1\ntriggers=2\nlag=3,-\nfloor=0\ndue=0,0\nafter=-,-\nafter=-,-\nland=-\nland=2\n";
const WAITING_TEXT: &str = "deviation=2\nsteps=1\nselections=1\ncount=1\nline=-5,0\n";

fn text(sheet: &str) -> String {
    let mut space = [0; 20 * LINE_WORDS];
    plan(sheet.as_bytes(), &mut space).unwrap().to_string()
}

fn refused(sheet: &str) -> Option<u32> {
    let refusal = plan(sheet.as_bytes(), &mut [0; 20 * LINE_WORDS]).err();
    refusal.map(Refusal::number)
}

/// Whether the same timings are tightest on both.
fn alike(first: &str, second: &str) -> bool {
    let (mut left, mut right) = ([0; 20 * LINE_WORDS], [0; 20 * LINE_WORDS]);
    let compared = same(first.as_bytes(), second.as_bytes(), &mut left, &mut right);
    compared.unwrap().same()
}

#[test]
fn a_trigger_that_waits() {
    assert_eq!(text(WAITING), WAITING_TEXT);
    let sheet = WAITING.as_bytes();
    assert_eq!(test(sheet, &[0, 5]), Ok(true));
    assert_eq!(test(sheet, &[0, 4]), Ok(false));
    assert_eq!(test(sheet, &[0, 6]), Ok(false));
    assert_eq!(kept(sheet).unwrap().panels()[0].byte, 1);
    for given in [[0, 9], [3, 5]] {
        let mut space = [0; LINE_WORDS];
        assert_eq!(latest(sheet, &given, &mut space).unwrap().times(), [0, 5]);
    }
}

#[test]
fn with_and_without_land_lines() {
    let nothing = format!("{WHOLE}land=-,-\nland=-,-\n");
    assert_eq!(text(&nothing), text(WHOLE));
    assert!(alike(WHOLE, &nothing));
    let as_after = WAITING.replace("after=-,-\nland=-\nland=2\n", "after=5,-\n");
    assert_eq!(text(&as_after), WAITING_TEXT);
    assert!(alike(WAITING, &as_after));
    assert!(!alike(WAITING, &WAITING.replace("land=2", "land=3")));
}

#[test]
fn all_of_them_or_none() {
    let sheet = format!("{WHOLE}land=-,-\nland=-1,-\n");
    for length in WHOLE.len()..=sheet.len() {
        let whole = [WHOLE.len(), sheet.len()].contains(&length);
        let wanted = if whole { None } else { Some(2) };
        assert_eq!(refused(&sheet[..length]), wanted);
    }
    // An item for each panel, a line for each trigger.
    assert_eq!(refused(&WAITING.replace("land=-", "land=-,-")), Some(2));
    assert_eq!(refused(&format!("{WAITING}land=-\n")), Some(2));
}

#[test]
fn out_of_range_and_out_of_order() {
    assert_eq!(refused(&WAITING.replace("land=2", "land=100001")), Some(4));
    assert_eq!(refused(&WAITING.replace("land=2", "land=100000")), None);
    // Trigger 1 comes less than 5 before trigger 2, which waits for 5.
    let circle = WAITING.replacen("after=-,-", "after=-,-4", 1);
    assert_eq!(refused(&circle), Some(8));
    assert_eq!(test(circle.as_bytes(), &[0, 5]), Err(Refusal::Order));
    assert_eq!(kept(circle.as_bytes()), Err(Refusal::Order));
}
