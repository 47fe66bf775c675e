//! The latest tightest times that are no later than given ones: held to what that means, and refused.

use tuzhelar::{Refusal, latest, plan, test};

const WHOLE: &[u8] =
    b"panels=2\ntriggers=2\nlag=2,0\nlag=4,1\nfloor=5,2\ndue=1,2\nafter=-,-\nafter=-,-\n";
/// Trigger 2 comes at least 1 after trigger 1.
const AFTER: &[u8] = b"panels=1\ntriggers=2\nlag=0,0\nfloor=0\ndue=0,0\nafter=-,-\nafter=1,-\n";
const CIRCLE: &[u8] = b"panels=1\ntriggers=1\nlag=5\nfloor=0\ndue=0\nafter=1\n";
const UNTOUCHED: i32 = 7777;
const LIMIT: i64 = 1_000_000_000;
/// The whole case has two lines.
const TOO_SMALL: Refusal = Refusal::Space {
    count: 2,
    words: 14,
};

fn times(sheet: &[u8], given: &[i64]) -> Vec<i64> {
    let mut space = [0; 100];
    latest(sheet, given, &mut space).unwrap().times().to_vec()
}

/// By trying all: each time is the latest of any tightest times in a box below the given ones.
fn by_trying(sheet: &[u8], given: [i64; 2]) -> Vec<i64> {
    let mut found = vec![i64::MIN; 2];
    for first in given[0] - 10..=given[0] {
        for second in given[1] - 10..=given[1] {
            if test(sheet, &[first, second]) == Ok(true) {
                found = vec![found[0].max(first), found[1].max(second)];
            }
        }
    }
    found
}

#[test]
fn the_latest_of_all() {
    assert_eq!(times(WHOLE, &[0, 2]), [0, 1]);
    for sheet in [WHOLE, AFTER] {
        for first in -3..=3 {
            for second in -3..=3 {
                let given = [first, second];
                let found = times(sheet, &given);
                assert_eq!(found, by_trying(sheet, given));
                assert_eq!(test(sheet, &found), Ok(true));
                assert_eq!(found == given, test(sheet, &given).unwrap());
            }
        }
    }
}

#[test]
fn up_to_the_limits() {
    assert_eq!(times(WHOLE, &[LIMIT, LIMIT]), [LIMIT, LIMIT]);
    assert_eq!(times(WHOLE, &[-LIMIT, LIMIT]), [-LIMIT, 1 - LIMIT]);
    // One lower than can be given, and tested.
    let below = times(AFTER, &[-LIMIT, -LIMIT]);
    assert_eq!(below, [-LIMIT - 1, -LIMIT]);
    assert_eq!(test(AFTER, &below), Err(Refusal::Time));
}

#[test]
fn the_lines_are_those_of_the_plan() {
    for length in 0..40 {
        let mut space = vec![UNTOUCHED; length];
        let found = latest(WHOLE, &[0, 2], &mut space);
        let written = if length < 14 {
            assert_eq!(found, Err(TOO_SMALL));
            0
        } else {
            let found = found.unwrap();
            let mut other = [0; 14];
            assert!(found.lines().eq(plan(WHOLE, &mut other).unwrap().lines()));
            assert_eq!((found.triggers(), found.lines().len()), (2, 2));
            14
        };
        assert!(space[written..].iter().all(|&word| word == UNTOUCHED));
    }
}

#[test]
fn every_refusal_in_its_order() {
    let check = |sheet: &[u8], given: &[i64], words: usize, wanted: Refusal| {
        let mut space = vec![UNTOUCHED; words];
        assert_eq!(latest(sheet, given, &mut space), Err(wanted));
        assert!(space.iter().all(|&word| word == UNTOUCHED));
    };
    for count in (0..20).filter(|&count| count != 2) {
        check(WHOLE, &vec![0; count], 30, Refusal::Components);
    }
    check(b"", &[i64::MAX; 7], 0, Refusal::Form);
    check(WHOLE, &[i64::MAX; 1000], 0, Refusal::Components);
    check(WHOLE, &[LIMIT + 1; 3], 0, Refusal::Components);
    check(CIRCLE, &[LIMIT + 1, 0], 0, Refusal::Components);
    check(WHOLE, &[0, LIMIT + 1], 0, Refusal::Time);
    check(WHOLE, &[0, i64::MIN], 30, Refusal::Time);
    check(CIRCLE, &[-LIMIT - 1], 30, Refusal::Time);
    check(CIRCLE, &[0], 0, Refusal::Order);
    check(WHOLE, &[0, 0], 13, TOO_SMALL);
}
