//! Sheets that are made: worked cases, sizes and bytes of every number, and loads.

use std::collections::HashSet;
use tuzhelar::{HIRE_BYTES, LINE_WORDS, MOST, Refusal, hire, kept, plan};

const UNTOUCHED: u8 = b'#';

/// Sizes, a state, the sheet that they make and the next state, worked out from document 02.
const WORKED: [([usize; 2], u32, &str, u32); 5] = [
    (
        [1, 1],
        0,
        "panels=1\ntriggers=1\nlag=-517\nfloor=463\ndue=947\nafter=-\n",
        2_027_808_484,
    ),
    (
        [2, 2],
        1,
        "panels=2\ntriggers=2\nlag=-517,-\nlag=947,-74\nfloor=907,-611\ndue=370,853\nafter=-,-\nafter=-704,-\n",
        1_788_458_157,
    ),
    // Draws of the first lag, the first floor and the second due mark that leave remainder 0 by 7.
    (
        [2, 2],
        1_640_431_616,
        "panels=2\ntriggers=2\nlag=502,-519\nlag=462,-\nfloor=-75,905\ndue=-612,368\nafter=-,-\nafter=812,-\n",
        3_428_889_772,
    ),
    // The first draw gives 0, and the least number; then 2,000, and the largest.
    (
        [1, 1],
        1_640_531_527,
        "panels=1\ntriggers=1\nlag=-1000\nfloor=-517\ndue=463\nafter=-\n",
        3_668_340_011,
    ),
    (
        [1, 1],
        1_771_603_527,
        "panels=1\ntriggers=1\nlag=1000\nfloor=-518\ndue=462\nafter=-\n",
        3_799_412_011,
    ),
];

#[test]
fn the_worked_sheets() {
    for ([panels, triggers], state, sheet, next) in WORKED {
        let mut bytes = [0; HIRE_BYTES];
        let hired = hire(panels, triggers, state, &mut bytes).unwrap();
        assert_eq!(String::from_utf8_lossy(hired.sheet), sheet);
        assert_eq!(hired.state, next);
    }
}

#[test]
fn bytes_of_any_number() {
    for ([panels, triggers], state, sheet, next) in WORKED {
        for length in 0..sheet.len() + 20 {
            let mut bytes = vec![UNTOUCHED; length];
            let hired = hire(panels, triggers, state, &mut bytes).map(|hired| hired.state);
            let written = if length < sheet.len() {
                assert_eq!(hired, Err(Refusal::SheetSpace));
                0
            } else {
                assert_eq!(hired, Ok(next));
                sheet.len()
            };
            assert_eq!(bytes[..written], sheet.as_bytes()[..written]);
            assert!(bytes[written..].iter().all(|&byte| byte == UNTOUCHED));
        }
    }
}

#[test]
fn sizes_of_any_number() {
    for size in (0..20).chain([256 + 2, (1 << 32) + 2, usize::MAX]) {
        for (panels, triggers) in [(size, 2), (2, size)] {
            let mut bytes = [UNTOUCHED; HIRE_BYTES];
            let hired = hire(panels, triggers, 1, &mut bytes).map(|_| ());
            if (1..=MOST).contains(&size) {
                assert_eq!(hired, Ok(()));
                continue;
            }
            assert_eq!(hired, Err(Refusal::HireSize));
            assert_eq!(bytes, [UNTOUCHED; HIRE_BYTES]);
            // 12 before 13.
            assert_eq!(hire(panels, triggers, 1, &mut []), Err(Refusal::HireSize));
        }
    }
}

#[test]
fn a_load_of_each_size() {
    let (mut bytes, mut space) = ([0; HIRE_BYTES], [0; 100 * LINE_WORDS]);
    for panels in 1..=MOST {
        for triggers in 1..=MOST {
            let mut state = u32::MAX;
            for _ in 0..20 {
                let hired = hire(panels, triggers, state, &mut bytes).unwrap();
                let planned = plan(hired.sheet, &mut space).unwrap();
                assert_eq!(planned.triggers(), triggers);
                assert_eq!(kept(hired.sheet).unwrap().panels().len(), panels);
                let draws = panels * triggers + panels + triggers + triggers * triggers;
                let strides = 2_654_435_769_u32.wrapping_mul(draws as u32);
                assert_eq!(hired.state, state.wrapping_add(strides));
                state = hired.state;
            }
        }
    }
}

#[test]
fn a_load_is_made_by_chaining() {
    let mut bytes = [0; HIRE_BYTES];
    let (mut state, mut chained, mut counted) = (0, HashSet::new(), HashSet::new());
    for number in 0..1000 {
        let hired = hire(6, 6, state, &mut bytes).unwrap();
        state = hired.state;
        chained.insert(hired.sheet.to_vec());
        let hired = hire(6, 6, number, &mut bytes).unwrap();
        counted.insert(hired.sheet.to_vec());
    }
    assert_eq!((chained.len(), counted.len()), (1000, 3));
}
