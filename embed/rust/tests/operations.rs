//! The operations on document 01's cases, and on slices of every length.

use tuzhelar::{KeptPanel, LINE_WORDS, Likeness, Refusal, SHEET_BYTES, SheetRefusal};
use tuzhelar::{kept, latest, plan, same, test};

const WHOLE: &[u8] =
    b"panels=2\ntriggers=2\nlag=2,0\nlag=4,1\nfloor=5,2\ndue=1,2\nafter=-,-\nafter=-,-\n";
const UNTOUCHED: i32 = 7777;
/// The whole case has two lines.
const TOO_SMALL: Refusal = Refusal::Space {
    count: 2,
    words: 14,
};

/// The whole case with another line in the place of one.
fn changed(old: &str, new: &str) -> Vec<u8> {
    let sheet = std::str::from_utf8(WHOLE).unwrap();
    assert!(sheet.contains(old));
    sheet.replacen(old, new, 1).into_bytes()
}

/// A sheet of one panel and one trigger, lag 5, floor 0, due 0.
fn one(after: &str) -> Vec<u8> {
    format!("panels=1\ntriggers=1\nlag=5\nfloor=0\ndue=0\nafter={after}\n").into_bytes()
}

fn text(sheet: &[u8]) -> String {
    let mut space = [0; 2000 * LINE_WORDS];
    plan(sheet, &mut space).unwrap().to_string()
}

fn refusal(sheet: &[u8]) -> u32 {
    plan(sheet, &mut [0; 700]).unwrap_err().number()
}

#[test]
fn the_cases_of_the_document() {
    let line_0 = "deviation=-5\nsteps=1\nselections=1\ncount=1\nline=0\n";
    assert_eq!(text(&one("-")), line_0);
    assert_eq!(text(&one("0")), line_0);
    assert_eq!(text(&one("-1")), line_0);
    assert_eq!(refusal(&one("1")), 8);
    assert_eq!(
        text(b"panels=1\ntriggers=2\nlag=0,0\nfloor=0\ndue=0,0\nafter=-,-\nafter=1,-\n"),
        "deviation=0\nsteps=2\nselections=2\ncount=2\nline=-,0\nline=-1,0\n"
    );
    assert_eq!(
        text(b"panels=2\ntriggers=2\nlag=0,-\nlag=-,0\nfloor=0,-\ndue=0,0\nafter=-,-\nafter=-,-\n"),
        "deviation=0\nsteps=1\nselections=1\ncount=2\nline=0,-\nline=0,0\n"
    );
    assert_eq!(
        text(WHOLE),
        "deviation=2\nsteps=2\nselections=1\ncount=2\nline=-1,0\nline=0,-\n"
    );
    assert_eq!(test(WHOLE, &[0, 0]), Ok(true));
    assert_eq!(test(WHOLE, &[0, 1]), Ok(true));
    assert_eq!(test(WHOLE, &[0, 2]), Ok(false));
}

#[test]
fn every_refusal() {
    assert_eq!(refusal(&[b'\n'; SHEET_BYTES + 1]), 1);
    assert_eq!(refusal(&[b'\n'; SHEET_BYTES]), 2);
    assert_eq!(refusal(b""), 2);
    assert_eq!(refusal(&changed("lag=2,0", "lag=-0,0")), 2);
    assert_eq!(refusal(&changed("panels=2", "panels=7")), 3);
    assert_eq!(refusal(&changed("lag=2,0", "lag=100001,0")), 4);
    assert_eq!(refusal(&changed("due=1,2", "due=1,-")), 5);
    assert_eq!(refusal(&changed("lag=4,1", "lag=-,-")), 6);
    assert_eq!(refusal(&changed("floor=5,2", "floor=-,-")), 7);
    assert_eq!(refusal(&changed("after=-,-", "after=1,-")), 8);
    assert_eq!(plan(WHOLE, &mut [0; 13]), Err(TOO_SMALL));
    assert_eq!(test(WHOLE, &[0]), Err(Refusal::Components));
    assert_eq!(test(WHOLE, &[0, 1_000_000_001]), Err(Refusal::Time));
    assert_eq!(test(WHOLE, &[0, i64::MIN]), Err(Refusal::Time));
    assert_eq!(test(&one("1"), &[0]), Err(Refusal::Order));
    assert_eq!(test(&one("1"), &[i64::MAX]), Err(Refusal::Time));
    assert_eq!(test(&one("1"), &[0, 0]), Err(Refusal::Components));
}

#[test]
fn a_space_of_any_length() {
    for length in 0..40 {
        let mut space = vec![UNTOUCHED; length];
        let planned = plan(WHOLE, &mut space).map(|planned| planned.to_string());
        let written = if length < 14 {
            assert_eq!(planned, Err(TOO_SMALL));
            0
        } else {
            assert_eq!(planned, Ok(text(WHOLE)));
            14
        };
        assert!(space[written..].iter().all(|&word| word == UNTOUCHED));
    }
}

#[test]
fn a_sheet_of_any_length() {
    let mut sheet = WHOLE.to_vec();
    sheet.resize(SHEET_BYTES + 4, b'\n');
    for length in 0..=sheet.len() {
        let sheet = &sheet[..length];
        let wanted = match length {
            length if length == WHOLE.len() => None,
            0..=SHEET_BYTES => Some(Refusal::Form),
            _ => Some(Refusal::TooLong),
        };
        let mut space = [UNTOUCHED; 14];
        assert_eq!(plan(sheet, &mut space).err(), wanted);
        assert_eq!(kept(sheet).err(), wanted);
        assert_eq!(test(sheet, &[0, 0]).err(), wanted);
        assert_eq!(latest(sheet, &[0, 0], &mut space).err(), wanted);
        assert!(wanted.is_none() || space == [UNTOUCHED; 14]);
        let (first, second) = (
            wanted.map(SheetRefusal::First),
            wanted.map(SheetRefusal::Second),
        );
        assert_eq!(same(sheet, WHOLE, &mut [0; 14], &mut [0; 14]).err(), first);
        assert_eq!(same(WHOLE, sheet, &mut [0; 14], &mut [0; 14]).err(), second);
    }
}

#[test]
fn times_of_any_number() {
    for count in 0..20 {
        let wanted = if count == 2 {
            Ok(true)
        } else {
            Err(Refusal::Components)
        };
        assert_eq!(test(WHOLE, &vec![0; count]), wanted);
    }
    // Seven times and more are 10 for a sheet of six triggers too.
    let row = "0,0,0,0,0,0\n";
    let after = "after=-,-,-,-,-,-\n".repeat(6);
    let sheet = format!("panels=1\ntriggers=6\nlag={row}floor=0\ndue={row}{after}");
    assert_eq!(test(sheet.as_bytes(), &[0; 6]), Ok(true));
    assert_eq!(test(sheet.as_bytes(), &[0; 7]), Err(Refusal::Components));
    assert_eq!(
        test(sheet.as_bytes(), &[i64::MAX; 1000]),
        Err(Refusal::Components)
    );
}

#[test]
fn the_kept_table() {
    let whole = kept(WHOLE).unwrap();
    assert_eq!((whole.deviation, whole.steps, whole.selections), (2, 2, 1));
    let panels = [
        KeptPanel { byte: 1, count: 1 },
        KeptPanel { byte: 3, count: 2 },
    ];
    assert_eq!(whole.panels(), panels);
    let floor_absent =
        kept(b"panels=2\ntriggers=2\nlag=0,-\nlag=-,0\nfloor=0,-\ndue=0,0\nafter=-,-\nafter=-,-\n")
            .unwrap();
    assert_eq!(
        floor_absent.panels(),
        [KeptPanel { byte: 1, count: 1 }, KeptPanel::default()]
    );
    assert_eq!(kept(&one("1")), Err(Refusal::Order));
}

#[test]
fn two_sheets() {
    let exchanged =
        b"panels=2\ntriggers=2\nlag=4,1\nlag=2,0\nfloor=2,5\ndue=1,2\nafter=-,-\nafter=-,-\n";
    let later = changed("due=1,2", "due=1,3");
    let one = one("-");
    let cases: [(&[u8], &[u8], Likeness); 6] = [
        (WHOLE, WHOLE, Likeness::Same),
        (WHOLE, exchanged, Likeness::Same),
        (WHOLE, &later, Likeness::Different),
        (&later, exchanged, Likeness::Different),
        (WHOLE, &one, Likeness::Unlike),
        (&one, WHOLE, Likeness::Unlike),
    ];
    for (first, second, likeness) in cases {
        let (mut left, mut right) = ([UNTOUCHED; 30], [UNTOUCHED; 30]);
        let compared = same(first, second, &mut left, &mut right).unwrap();
        assert_eq!(compared.likeness, likeness);
        assert_eq!(compared.same(), likeness == Likeness::Same);
        let (mut first_space, mut second_space) = ([0; 30], [0; 30]);
        let first = plan(first, &mut first_space).unwrap();
        let second = plan(second, &mut second_space).unwrap();
        assert!(compared.first_lines().eq(first.lines()));
        assert!(compared.second_lines().eq(second.lines()));
        assert_eq!(first.lines().eq(second.lines()), likeness == Likeness::Same);
        assert!(
            left[LINE_WORDS * first.count..]
                .iter()
                .all(|&w| w == UNTOUCHED)
        );
        assert!(
            right[LINE_WORDS * second.count..]
                .iter()
                .all(|&w| w == UNTOUCHED)
        );
    }
}

#[test]
fn two_sheets_refused() {
    let check = |sheets: [&[u8]; 2], lent: [usize; 2], refusal: SheetRefusal, number: u32| {
        let [mut left, mut right] = lent.map(|words| vec![UNTOUCHED; words]);
        let refused = same(sheets[0], sheets[1], &mut left, &mut right);
        assert_eq!(refused, Err(refusal));
        assert_eq!(refusal.number(), number);
        assert!(left.iter().chain(&right).all(|&word| word == UNTOUCHED));
        let which = if number < 200 { "first" } else { "second" };
        assert!(
            refusal
                .to_string()
                .starts_with(&format!("the {which} sheet: "))
        );
    };
    let (first, second) = (SheetRefusal::First, SheetRefusal::Second);
    let circle = &one("1")[..];
    check([b"", b""], [0, 0], first(Refusal::Form), 2);
    check([b"", circle], [30, 30], first(Refusal::Form), 2);
    check([circle, b""], [30, 30], first(Refusal::Order), 8);
    check([WHOLE, b""], [13, 30], first(TOO_SMALL), 9);
    check([WHOLE, WHOLE], [13, 13], first(TOO_SMALL), 9);
    check([WHOLE, b""], [14, 30], second(Refusal::Form), 202);
    check([WHOLE, circle], [30, 0], second(Refusal::Order), 208);
    check([WHOLE, WHOLE], [14, 13], second(TOO_SMALL), 209);
}

#[test]
fn lines_and_times() {
    let mut space = [0; 100];
    let planned = plan(WHOLE, &mut space).unwrap();
    assert_eq!((planned.count, planned.triggers()), (2, 2));
    let lines: Vec<_> = planned.lines().collect();
    assert_eq!(lines[0].components(), [Some(-1), Some(0)]);
    assert_eq!(lines[1].components(), [Some(0), None]);
    assert_eq!((lines[1].triggers(), lines[1].cap()), (2, None));
    assert!(lines.is_sorted());
    assert_eq!(planned.lines().len(), 2);

    // Times that are made from the lines are tightest.
    for first in -3..=3 {
        for second in -3..=3 {
            let made = planned.times(&[first, second]).unwrap();
            assert_eq!(test(WHOLE, &made), Ok(true));
        }
    }
    assert_eq!(planned.times(&[0]), None);
    assert_eq!(planned.times(&[0, 0, 0]), None);
    assert_eq!(planned.times(&[i64::MIN, 0]), None);
}

#[test]
fn refusals_have_their_sentences() {
    let all = [
        Refusal::TooLong,
        Refusal::Form,
        Refusal::Size,
        Refusal::Range,
        Refusal::NoDue,
        Refusal::NoLag,
        Refusal::NoFloor,
        Refusal::Order,
        TOO_SMALL,
        Refusal::Components,
        Refusal::Time,
        Refusal::HireSize,
        Refusal::SheetSpace,
        Refusal::NoTriggerLag,
    ];
    for (refusal, number) in all.into_iter().zip(1..) {
        assert_eq!(refusal.number(), number);
        assert!(!refusal.to_string().is_empty());
    }
    assert!(TOO_SMALL.to_string().contains("2 lines"));
    assert!(TOO_SMALL.to_string().contains("14 words"));
}
