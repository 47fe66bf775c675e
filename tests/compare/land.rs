//! Cases of document 02's No. 2, triggers that wait for a landing, as checks of the reference.

use crate::cases::texts_and_codes;
use crate::cases::{Checks, NO_RULES, WHOLE, behind_sheets, chain, one_by_one, sheet_of};
use crate::latest::{Reached, latest};
use crate::reference::{self, LINE_WORDS, Likeness};

/// Trigger 2 waits for the panel that trigger 1 reaches: x(2) ≥ 2 + y(1), and y(1) is 3 + x(1).
const WAITING: &str =
    "panels=1\ntriggers=2\nlag=3,-\nfloor=0\ndue=0,0\nafter=-,-\nafter=-,-\nland=-\nland=2\n";
const WAITING_TEXT: &str = "deviation=2\nsteps=1\nselections=1\ncount=1\nline=-5,0\n";
/// One trigger and two panels, of which the first alone has a floor.
const TWO_PANELS: &str = "panels=2\ntriggers=1\nlag=5\nlag=7\nfloor=0,-\ndue=0\nafter=-\n";

/// Example 6 of document 000, its marks written out: every floor 0, each due mark minus the largest lag.
pub const EXAMPLE_6: &str = "\
panels=3
triggers=3
lag=3,-1,-
lag=-2,2,0
lag=-1,-,4
floor=0,0,0
due=-3,-2,-4
after=-,-,-3
after=2,-,-
after=1,-2,-
land=-,-,-
land=0,-,-3
land=-1,-,-
";

/// All sheets named here; the comparison begins with them.
pub fn sheets() -> Vec<Vec<u8>> {
    let planned = plan_cases().into_iter().map(|(sheet, _)| sheet);
    let read = reading_cases().into_iter().map(|(sheet, _)| sheet);
    planned.chain(read).map(String::into_bytes).collect()
}

/// Every check of `compare --self` that is a case.
pub fn run(checks: &mut Checks) {
    texts_and_codes(checks, plan_cases(), reading_cases());
    checks.check("1,080 bytes", longest_good().len() == 1080);
    checks.check(
        "kept, example 6",
        reference::kept_text(EXAMPLE_6.as_bytes())
            == "deviation=3\nkept=3,2\nkept=7,3\nkept=7,3\nsteps=6\nselections=2\n",
    );
    test_cases(checks);
    latest_cases(checks);
    same_cases(checks);
}

/// Sheet and the planning program's text.
fn plan_cases() -> Vec<(String, &'static str)> {
    let no_order = "refused=8\n";
    let one_line = "deviation=-5\nsteps=1\nselections=1\ncount=1\nline=0\n";
    let one = |land: &str| one_by_one("-") + land;
    let two_panels = |land: &str| TWO_PANELS.to_string() + land;
    let whole = |land: &str| WHOLE.to_string() + land;
    let with_after = |rule: &str| WAITING.replacen("after=-,-", rule, 1);
    vec![
        (one("land=-\n"), one_line),
        (one("land=-6\n"), one_line),
        // A circle that sums to 0 can be kept.
        (one("land=-5\n"), one_line),
        (one("land=-4\n"), no_order),
        // The product goes over panels, of which there are more than triggers.
        (two_panels("land=-,-7\n"), one_line),
        (two_panels("land=-,-6\n"), no_order),
        (WAITING.to_string(), WAITING_TEXT),
        // x(2) ≥ −1 + y(1), and y(1) is the larger of 2 + x(1) and x(2): so x(2) ≥ 1 + x(1).
        (
            whole("land=-,-\nland=-1,-\n"),
            "deviation=2\nsteps=2\nselections=1\ncount=1\nline=-1,0\n",
        ),
        // x(2) ≥ 1 + y(1) ≥ 1 + x(2): trigger 2 would have to come later than itself.
        (whole("land=-,-\nland=1,-\n"), no_order),
        // An after rule and a land rule make a circle, and either could be kept alone.
        (
            with_after("after=-,-5"),
            "deviation=2\nsteps=2\nselections=2\ncount=1\nline=-5,0\n",
        ),
        (with_after("after=-,-4"), no_order),
        (
            EXAMPLE_6.to_string(),
            "deviation=3\nsteps=6\nselections=2\ncount=2\nline=-5,0,-2\nline=-3,0,-1\n",
        ),
        // The greatest deviation that there is.
        (
            longest_chain(),
            "deviation=1300000\nsteps=1\nselections=1\ncount=1\n\
             line=-1000000,-800000,-600000,-400000,-200000,0\n",
        ),
    ]
}

/// Every trigger but the first waits for a panel that the trigger before alone reaches, each time by
/// twice 100,000: M* and r at their bounds.
fn longest_chain() -> String {
    let (lag, land) = (chain("lag", "100000"), chain("land", "100000"));
    // The panels begin with the one that trigger 1 reaches; the last of them has the floor.
    let lag = lag.replacen("lag=-,-,-,-,-,-\n", "", 1) + "lag=-100000,-,-,-,-,-\n";
    let due = ["-100000"; 6].join(",");
    let after = NO_RULES.repeat(6);
    format!("panels=6\ntriggers=6\n{lag}floor=-,-,-,-,-,100000\ndue={due}\n{after}{land}")
}

/// The longest good sheet without a last line.
pub fn longest_good() -> String {
    let row = ["-100000"; 6].join(",");
    let lines = |key: &str, count: usize| format!("{key}={row}\n").repeat(count);
    let kinds = [
        ("lag", 6),
        ("floor", 1),
        ("due", 1),
        ("after", 6),
        ("land", 6),
    ];
    "panels=6\ntriggers=6\n".to_string() + &kinds.map(|(key, count)| lines(key, count)).concat()
}

/// Sheet and the refusal of reading, or 0: what may stand behind the after lines.
fn reading_cases() -> Vec<(String, u32)> {
    let one = |lag: &str, floor: &str| sheet_of("1", "1", lag, floor, "0", "-");
    let two_triggers = WAITING.replace("land=-\nland=2\n", "");
    let behind: [(&str, &[(&str, u32)]); 5] = [
        (&one("5", "0"), &BEHIND_ONE),
        (TWO_PANELS, &BEHIND_TWO_PANELS),
        (&two_triggers, &BEHIND_TWO_TRIGGERS),
        (&one("-", "-"), &BEHIND_NO_LAG),
        (&one("5", "-"), &BEHIND_NO_FLOOR),
    ];
    let before_after = WHOLE.replacen("after=", "land=-,-\nland=-,-\nafter=", 1);
    let more = [(before_after, 2), (longest_good(), 0)];
    behind_sheets(&behind).chain(more).collect()
}

const BEHIND_ONE: [(&str, u32); 18] = [
    ("land=-\n", 0),
    ("land=100000\n", 0),
    ("land=-100000\n", 0),
    ("land=100001\n", 4),
    ("land=-100001\n", 4),
    ("land=-0\n", 2),
    ("land=\n", 2),
    ("land=", 2),
    ("land", 2),
    ("land=-", 2),
    ("land=-\r\n", 2),
    ("Land=-\n", 2),
    ("land =-\n", 2),
    ("\nland=-\n", 2),
    ("land=-\nland=-\n", 2),
    ("after=-\n", 2),
    ("land=-\nx", 2),
    ("land=100001\nx", 4),
];

/// An item for each panel: "In one line 2 before … 4".
const BEHIND_TWO_PANELS: [(&str, u32); 7] = [
    ("land=-,-\n", 0),
    ("land=-\n", 2),
    ("land=-,-,-\n", 2),
    ("land=-,-\nland=-,-\n", 2),
    ("land=0,100001\n", 4),
    ("land=100001,x\n", 2),
    ("land=100001\n", 2),
];

/// A line for each trigger: "line by line".
const BEHIND_TWO_TRIGGERS: [(&str, u32); 9] = [
    ("land=-\nland=-\n", 0),
    ("land=-\n", 2),
    ("land=-\nland=-\nland=-\n", 2),
    ("land=-,-\nland=-,-\n", 2),
    ("land=-\nafter=-\n", 2),
    ("land=-\n\nland=-\n", 2),
    ("land=100001\n", 4),
    ("land=100001\nland=x\n", 4),
    ("land=x\nland=100001\n", 2),
];

/// Bytes left over, then 6, then 7, each once the land lines are read.
const BEHIND_NO_LAG: [(&str, u32); 4] = [
    ("land=-\n", 6),
    ("land=100001\n", 4),
    ("land=-\nx", 2),
    ("land=x\n", 2),
];
const BEHIND_NO_FLOOR: [(&str, u32); 3] = [("land=-\n", 7), ("land=100001\n", 4), ("land=-\nx", 2)];

fn test_cases(checks: &mut Checks) {
    let circle = &WAITING.replacen("after=-,-", "after=-,-4", 1);
    let beyond = reference::LONGEST_TIME + 1;
    let cases = [
        (WAITING, [0, 5], Ok(true)),
        (WAITING, [0, 4], Ok(false)),
        (WAITING, [0, 6], Ok(false)),
        (circle, [0, 5], Err(8)),
        (circle, [0, beyond], Err(11)),
    ];
    for (sheet, times, wanted) in cases {
        let tested = reference::test(sheet.as_bytes(), &times);
        checks.check(&format!("test of {times:?} on {sheet:?}"), tested == wanted);
    }
}

/// Who waits comes no later than 5 after the other, and who is waited for no earlier.
fn latest_cases(checks: &mut Checks) {
    let wanted = Reached {
        count: 1,
        line_words: LINE_WORDS,
        times: vec![0, 5],
    };
    for given in [[0, 5], [0, 9], [3, 5]] {
        let found = latest(WAITING.as_bytes(), &given, &mut [0; LINE_WORDS]);
        checks.check(
            &format!("latest below {given:?}"),
            found.as_ref() == Ok(&wanted),
        );
    }
}

/// A sheet with land lines and another one.
fn same_cases(checks: &mut Checks) {
    let mut check = |name: &str, sheets: [&str; 2], likeness, count| {
        let [first, second] = sheets.map(str::as_bytes);
        let compared = reference::same(first, second, &mut [0; 30], &mut [0; 30]);
        let wanted = (likeness, [count; 2], [LINE_WORDS; 2]);
        checks.check(name, compared == Ok(wanted));
    };
    let nothing = format!("{WHOLE}land=-,-\nland=-,-\n");
    let written_out = WAITING.replace("after=-,-\nland=-\nland=2\n", "after=5,-\n");
    let less = WAITING.replace("land=2", "land=1");
    let (same, different) = (Likeness::Same, Likeness::Different);
    check("land lines that ask nothing", [WHOLE, &nothing], same, 2);
    let as_after = [WAITING, &written_out];
    check("land rules as after rules", as_after, same, 1);
    check("another land entry", [WAITING, &less], different, 1);
}
