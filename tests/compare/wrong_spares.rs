//! Wrong programs that are wrong about spare triggers.

use crate::itself;
use crate::reference::{self, CAPPED_WORDS, LINE_WORDS, LONGEST_TIME, SIZE, Sheet};
use crate::sheets::Draft;
use crate::under_test::{DIFFERENT, KeptAnswer, LatestAnswer, Operations, PlanAnswer, SameAnswer};
use crate::under_test::{UNLIKE, UNTOUCHED};
use crate::wrong::{Mistake, changed, operations};

/// Mistakes in what is spare, and in what a spare trigger means for a plan or a timing.
pub const MEANING: [(&str, Operations); 14] = [
    ("no trigger is spare", operations::<NoneSpare>()),
    ("a spare due mark in a test", operations::<DueTested>()),
    (
        "a spare due mark in the latest",
        operations::<DueInLatest>(),
    ),
    ("a spare line in the list", operations::<SpareLine>()),
    ("spare with a diagonal rule", operations::<NoDiagonal>()),
    ("spare with a rule in its row", operations::<NoRow>()),
    ("spare with a rule in its column", operations::<NoColumn>()),
    ("spare with a land rule", operations::<NoLandRow>()),
    ("in use by absent land items", operations::<LandLines>()),
    ("components moved together", operations::<Together>()),
    ("a line's count without spares", operations::<CountInUse>()),
    ("no byte of spares", operations::<NoByte>()),
    ("other spares compared", operations::<SparesCompared>()),
    ("another spare time", operations::<AnotherTime>()),
];

/// Mistakes that a plan and its timings do not show.
pub const OTHERS: [(&str, Operations); 4] = [
    ("kept bits moved together", operations::<BitsTogether>()),
    ("the byte of spares beside 9", operations::<ByteBeside9>()),
    ("any spare time permitted", operations::<NoLimit>()),
    ("no due mark for a spare", operations::<NoSpareDue>()),
];

/// The sheet with a rule that asks nothing for each spare trigger, which then is in use; its due mark under rule 2,
/// which does not take it there, is 0.
fn all_in_use(sheet: &[u8]) -> Vec<u8> {
    changed(sheet, |draft| {
        if draft.by_spread && draft.spares().contains(&true) {
            draft.say_by_marks();
        }
        for (j, spare) in draft.spares().into_iter().enumerate() {
            if spare {
                draft.after[j][j] = Some(0);
            }
        }
    })
}

/// The sheet without the entries that `clear` takes from a trigger, where it is spare without them.
fn overlooked(sheet: &[u8], clear: fn(&mut Draft, usize)) -> Vec<u8> {
    changed(sheet, |draft| {
        for j in 0..draft.triggers() {
            let mut without = draft.clone();
            clear(&mut without, j);
            if without.is_spare(j) {
                *draft = without;
            }
        }
    })
}

/// What a good sheet says; a planned one is good.
pub fn read(sheet: &[u8]) -> Sheet {
    reference::read(sheet).unwrap_or_else(|number| panic!("refused with {number}"))
}

struct NoneSpare;
impl Mistake for NoneSpare {
    fn taken(sheet: &[u8]) -> Vec<u8> {
        all_in_use(sheet)
    }
}

/// The tested deviation has every due mark in it.
struct DueTested;
impl Mistake for DueTested {
    fn test(sheet: &[u8], times: &[i64]) -> u32 {
        itself::test(&all_in_use(sheet), times)
    }
}

/// The list is right, and the latest times are held by every due mark.
struct DueInLatest;
impl Mistake for DueInLatest {
    fn latest(sheet: &[u8], given: &[i64], space: &mut [i32]) -> LatestAnswer {
        let mut answer = itself::latest(sheet, given, space);
        if answer.code == 0 {
            let mut enough = vec![0; 1000 * CAPPED_WORDS];
            let held = itself::latest(&all_in_use(sheet), given, &mut enough);
            answer.words[1..].copy_from_slice(&held.words[1..]);
        }
        answer
    }
}

/// The spare triggers are known, and have their lines.
struct SpareLine;
impl Mistake for SpareLine {
    fn plan(sheet: &[u8], space: &mut [i32]) -> PlanAnswer {
        let mut answer = itself::plan(&all_in_use(sheet), space);
        if answer.code == 0 {
            answer.words[4] = read(sheet).spares().into();
        }
        answer
    }
}

struct NoDiagonal;
impl Mistake for NoDiagonal {
    fn taken(sheet: &[u8]) -> Vec<u8> {
        overlooked(sheet, |draft, j| draft.after[j][j] = None)
    }
}

struct NoRow;
impl Mistake for NoRow {
    fn taken(sheet: &[u8]) -> Vec<u8> {
        overlooked(sheet, |draft, j| draft.after[j].fill(None))
    }
}

struct NoColumn;
impl Mistake for NoColumn {
    fn taken(sheet: &[u8]) -> Vec<u8> {
        overlooked(sheet, |draft, j| {
            draft.after.iter_mut().for_each(|row| row[j] = None);
        })
    }
}

struct NoLandRow;
impl Mistake for NoLandRow {
    fn taken(sheet: &[u8]) -> Vec<u8> {
        overlooked(sheet, |draft, j| {
            draft.land.iter_mut().for_each(|land| land[j].fill(None));
        })
    }
}

/// A land line is taken for a rule, whatever it holds.
struct LandLines;
impl Mistake for LandLines {
    fn taken(sheet: &[u8]) -> Vec<u8> {
        let key = b"land=";
        if sheet.windows(key.len()).any(|bytes| bytes == key) {
            all_in_use(sheet)
        } else {
            sheet.to_vec()
        }
    }
}

/// Changes the lines of a good plan, each with the triggers that are in use.
fn with_lines(sheet: &[u8], space: &mut [i32], change: fn(&mut [i32], &[usize])) -> PlanAnswer {
    let answer = itself::plan(sheet, space);
    if answer.code == 0 {
        let in_use: Vec<usize> = read(sheet).in_use().collect();
        let lines = space.chunks_exact_mut(answer.words[5] as usize);
        let lines = lines.take(answer.words[3] as usize);
        lines.for_each(|words| change(words, &in_use));
    }
    answer
}

/// The components of the triggers in use stand at the front.
struct Together;
impl Mistake for Together {
    fn plan(sheet: &[u8], space: &mut [i32]) -> PlanAnswer {
        with_lines(sheet, space, |words, in_use| {
            let mut together = [i32::MIN; SIZE];
            for (component, j) in together.iter_mut().zip(in_use) {
                *component = words[1 + j];
            }
            words[1..LINE_WORDS].copy_from_slice(&together);
        })
    }
}

/// A line's first word counts the triggers in use.
struct CountInUse;
impl Mistake for CountInUse {
    fn plan(sheet: &[u8], space: &mut [i32]) -> PlanAnswer {
        with_lines(sheet, space, |words, in_use| words[0] = in_use.len() as i32)
    }
}

/// The answer's fifth word is left as it is.
struct NoByte;
impl Mistake for NoByte {
    fn plan(sheet: &[u8], space: &mut [i32]) -> PlanAnswer {
        let mut answer = itself::plan(sheet, space);
        answer.words[4] = UNTOUCHED;
        answer
    }
}

/// Lists are compared where the numbers of triggers are equal.
struct SparesCompared;
impl Mistake for SparesCompared {
    fn same(first: &[u8], second: &[u8], left: &mut [i32], right: &mut [i32]) -> SameAnswer {
        let mut answer = itself::same(first, second, left, right);
        if answer.code == UNLIKE && read(first).triggers == read(second).triggers {
            answer.code = DIFFERENT;
        }
        answer
    }
}

/// A spare time that is given is lost.
struct AnotherTime;
impl Mistake for AnotherTime {
    fn latest(sheet: &[u8], given: &[i64], space: &mut [i32]) -> LatestAnswer {
        let mut answer = itself::latest(sheet, given, space);
        if answer.code == 0 {
            let sheet = read(sheet);
            let spares = (0..sheet.triggers).filter(|&j| sheet.is_spare(j));
            spares.for_each(|j| answer.words[1 + j] = 0);
        }
        answer
    }
}

/// The bits of the triggers in use stand at the low end.
struct BitsTogether;
impl Mistake for BitsTogether {
    fn kept(sheet: &[u8]) -> KeptAnswer {
        let mut answer = itself::kept(sheet);
        if answer.code == 0 {
            let in_use: Vec<usize> = read(sheet).in_use().collect();
            for byte in answer.words[4..16].iter_mut().step_by(2) {
                let bits = in_use.iter().enumerate();
                *byte = bits.map(|(k, j)| (*byte >> j & 1) << k).sum();
            }
        }
        answer
    }
}

/// 9 says more than the count.
struct ByteBeside9;
impl Mistake for ByteBeside9 {
    fn plan(sheet: &[u8], space: &mut [i32]) -> PlanAnswer {
        let mut answer = itself::plan(sheet, space);
        if answer.code == 9 {
            answer.words[4] = read(sheet).spares().into();
        }
        answer
    }
}

/// A spare time is not looked at.
struct NoLimit;
impl Mistake for NoLimit {
    fn test(sheet: &[u8], times: &[i64]) -> u32 {
        let mut looked_at = times.to_vec();
        if let Ok(sheet) = reference::read(sheet)
            && sheet.triggers == times.len()
        {
            let spares = (0..sheet.triggers).filter(|&j| sheet.is_spare(j));
            spares.for_each(|j| looked_at[j] = times[j].clamp(-LONGEST_TIME, LONGEST_TIME));
        }
        itself::test(sheet, &looked_at)
    }
}

/// An absent due mark is accepted where the trigger turns out to be spare.
struct NoSpareDue;
impl Mistake for NoSpareDue {
    fn taken(sheet: &[u8]) -> Vec<u8> {
        let text = String::from_utf8_lossy(sheet);
        let key = "due=";
        let Some(due) = text.lines().find_map(|line| line.strip_prefix(key)) else {
            return sheet.to_vec();
        };
        let items: Vec<&str> = due.split(',').collect();
        let zero = |item: &&str| if *item == "-" { "0" } else { item }.to_string();
        let filled: Vec<String> = items.iter().map(zero).collect();
        let filled = key.to_string() + &filled.join(",");
        let filled = text.replacen(&format!("{key}{due}"), &filled, 1);
        match reference::read(filled.as_bytes()) {
            Ok(read) if (0..items.len()).all(|j| items[j] != "-" || read.is_spare(j)) => {
                filled.into_bytes()
            }
            _ => sheet.to_vec(),
        }
    }
}
