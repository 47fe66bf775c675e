//! Wrong programs that are wrong about last lines.

use crate::itself;
use crate::last::later;
use crate::reference::{self, CAPPED_WORDS, LIMIT, LINE_WORDS, Line, SIZE, Sheet, cap};
use crate::under_test::{DIFFERENT, LatestAnswer, Operations, PlanAnswer, SAME, SameAnswer};
use crate::under_test::{UNLIKE, UNTOUCHED};
use crate::wrong::{Mistake, changed, operations};
use crate::wrong_spares::read;

/// Mistakes in what last moments mean for a plan or a timing.
pub const MEANING: [(&str, Operations); 15] = [
    ("a last line forgotten", operations::<Forgotten>()),
    ("a cap 1 too large", operations::<TooLarge>()),
    ("a cap 1 too small", operations::<TooSmall>()),
    ("caps by panels not reached", operations::<NotReached>()),
    ("caps by floors alone", operations::<FloorsAlone>()),
    ("caps behind all lines", operations::<CapsBehind>()),
    ("seven words a line told", operations::<SevenTold>()),
    ("lines by last moments", operations::<LinesChanged>()),
    ("last moments untested", operations::<Untested>()),
    ("a last moment too late", operations::<TooLate>()),
    ("the latest not in time", operations::<LatestLater>()),
    ("a spare time in time", operations::<SpareLowered>()),
    ("no words a line by the latest", operations::<LatestWords>()),
    ("caps compared", operations::<CapsCompared>()),
    ("caps and none unlike", operations::<LastUnlike>()),
];

/// Mistakes that a plan and its timings do not show: about the lent space, and about reading.
pub const OTHERS: [(&str, Operations); 9] = [
    ("9 by seven words", operations::<RoomBySeven>()),
    ("9 by eight words", operations::<RoomByEight>()),
    ("no words a line beside 9", operations::<NoneBeside9>()),
    ("seven words for both", operations::<SevenForBoth>()),
    ("an absent moment as none", operations::<AbsentMoment>()),
    ("missing moments as none", operations::<MissingMoments>()),
    ("5 before 4", operations::<FiveBefore4>()),
    ("a last line anywhere", operations::<Anywhere>()),
    ("two last lines", operations::<Twice>()),
];

struct Forgotten;
impl Mistake for Forgotten {
    fn taken(sheet: &[u8]) -> Vec<u8> {
        changed(sheet, |draft| draft.last = None)
    }
}

/// Plans a sheet, with other caps.
fn with_caps(sheet: &[u8], space: &mut [i32], other: fn(&Sheet, &Line) -> i64) -> PlanAnswer {
    let answer = itself::plan(sheet, space);
    if answer.code == 0 && answer.words[5] == CAPPED_WORDS as i64 {
        let sheet = read(sheet);
        let lines = space.chunks_exact_mut(CAPPED_WORDS);
        for words in lines.take(answer.words[3] as usize) {
            words[LINE_WORDS] = other(&sheet, &line_of(words)) as i32;
        }
    }
    answer
}

/// The components of a line in the lent space.
fn line_of(words: &[i32]) -> Line {
    let component = |word: i32| (word != i32::MIN).then_some(i64::from(word));
    std::array::from_fn(|j| component(words[1 + j]))
}

fn right(sheet: &Sheet, line: &Line) -> i64 {
    cap(sheet, line).expect("a line of eight words has a cap")
}

struct TooLarge;
impl Mistake for TooLarge {
    fn plan(sheet: &[u8], space: &mut [i32]) -> PlanAnswer {
        with_caps(sheet, space, |sheet, line| right(sheet, line) + 1)
    }
}

struct TooSmall;
impl Mistake for TooSmall {
    fn plan(sheet: &[u8], space: &mut [i32]) -> PlanAnswer {
        with_caps(sheet, space, |sheet, line| right(sheet, line) - 1)
    }
}

/// A panel that a line does not reach has its landing at 0.
struct NotReached;
impl Mistake for NotReached {
    fn plan(sheet: &[u8], space: &mut [i32]) -> PlanAnswer {
        with_caps(sheet, space, |sheet, line| {
            let reached = |i: &usize| (0..SIZE).any(|j| reaches(sheet, line, *i, j));
            let moments = sheet.last.iter().flatten().enumerate();
            let others = moments.filter(|(i, _)| !reached(i));
            let others = others.filter_map(|(_, last)| *last);
            others.fold(right(sheet, line), i64::min)
        })
    }
}

fn reaches(sheet: &Sheet, line: &Line, i: usize, j: usize) -> bool {
    j < sheet.triggers && sheet.lag[i][j].is_some() && line[j].is_some()
}

struct FloorsAlone;
impl Mistake for FloorsAlone {
    fn plan(sheet: &[u8], space: &mut [i32]) -> PlanAnswer {
        with_caps(sheet, space, |sheet, line| {
            right(&later(sheet, |i| sheet.floor[i].is_none()), line)
        })
    }
}

/// The lines as on a sheet without a last line, then the caps.
struct CapsBehind;
impl Mistake for CapsBehind {
    fn plan(sheet: &[u8], space: &mut [i32]) -> PlanAnswer {
        let answer = itself::plan(sheet, space);
        if answer.code == 0 && answer.words[5] == CAPPED_WORDS as i64 {
            let list = &mut space[..CAPPED_WORDS * answer.words[3] as usize];
            let words = list.chunks_exact(CAPPED_WORDS);
            let lines = words.clone().flat_map(|words| &words[..LINE_WORDS]);
            let caps = words.map(|words| &words[LINE_WORDS]);
            let moved: Vec<i32> = lines.chain(caps).copied().collect();
            list.copy_from_slice(&moved);
        }
        answer
    }
}

struct SevenTold;
impl Mistake for SevenTold {
    fn plan(sheet: &[u8], space: &mut [i32]) -> PlanAnswer {
        let mut answer = itself::plan(sheet, space);
        if answer.code == 0 {
            answer.words[5] = LINE_WORDS as i64;
        }
        answer
    }
}

/// A trigger is due no later than the last moments allow.
struct LinesChanged;
impl Mistake for LinesChanged {
    fn taken(sheet: &[u8]) -> Vec<u8> {
        changed(sheet, |draft| {
            let moments = draft.last.iter().flatten().zip(&draft.lag);
            for (last, lags) in moments {
                for (due, lag) in draft.due.iter_mut().zip(lags) {
                    let allowed = lag.map_or(*due, |lag| last - lag);
                    *due = allowed.min(*due).max(-LIMIT);
                }
            }
        })
    }
}

struct Untested;
impl Mistake for Untested {
    fn test(sheet: &[u8], times: &[i64]) -> u32 {
        itself::test(&Forgotten::taken(sheet), times)
    }
}

/// What lands at its last moment is not in time.
struct TooLate;
impl Mistake for TooLate {
    fn test(sheet: &[u8], times: &[i64]) -> u32 {
        let earlier = changed(sheet, |draft| {
            let moments = draft.last.iter_mut().flatten();
            moments.for_each(|last| *last = (*last - 1).max(-LIMIT));
        });
        itself::test(&earlier, times)
    }
}

/// The list is right, and the latest times are those of the sheet without its last line.
struct LatestLater;
impl Mistake for LatestLater {
    fn latest(sheet: &[u8], given: &[i64], space: &mut [i32]) -> LatestAnswer {
        let mut answer = itself::latest(sheet, given, space);
        if answer.code == 0 {
            let mut enough = vec![0; 1000 * LINE_WORDS];
            let late = itself::latest(&Forgotten::taken(sheet), given, &mut enough);
            answer.words[1..=SIZE].copy_from_slice(&late.words[1..=SIZE]);
        }
        answer
    }
}

/// A spare time is lowered to the first of the last moments.
struct SpareLowered;
impl Mistake for SpareLowered {
    fn latest(sheet: &[u8], given: &[i64], space: &mut [i32]) -> LatestAnswer {
        let mut answer = itself::latest(sheet, given, space);
        if answer.code == 0 {
            let sheet = read(sheet);
            let first = sheet.last.iter().flatten().flatten().min();
            for j in (0..sheet.triggers).filter(|&j| sheet.is_spare(j)) {
                let time = &mut answer.words[1 + j];
                *time = first.map_or(*time, |first| *first.min(time));
            }
        }
        answer
    }
}

struct LatestWords;
impl Mistake for LatestWords {
    fn latest(sheet: &[u8], given: &[i64], space: &mut [i32]) -> LatestAnswer {
        let mut answer = itself::latest(sheet, given, space);
        answer.words[7] = UNTOUCHED;
        answer
    }
}

/// The words of both lists are compared, whatever they are.
struct CapsCompared;
impl Mistake for CapsCompared {
    fn same(first: &[u8], second: &[u8], left: &mut [i32], right: &mut [i32]) -> SameAnswer {
        let mut answer = itself::same(first, second, left, right);
        if answer.code == SAME {
            let words = |sheet: &[u8]| read(sheet).line_words() * answer.words[0] as usize;
            if left[..words(first)] != right[..words(second)] {
                answer.code = DIFFERENT;
            }
        }
        answer
    }
}

/// A sheet with a last line is not compared with one without.
struct LastUnlike;
impl Mistake for LastUnlike {
    fn same(first: &[u8], second: &[u8], left: &mut [i32], right: &mut [i32]) -> SameAnswer {
        let mut answer = itself::same(first, second, left, right);
        let compared = [SAME, DIFFERENT].contains(&answer.code);
        if compared && read(first).line_words() != read(second).line_words() {
            answer.code = UNLIKE;
        }
        answer
    }
}

/// Two lists are said to have lines of seven words.
struct SevenForBoth;
impl Mistake for SevenForBoth {
    fn same(first: &[u8], second: &[u8], left: &mut [i32], right: &mut [i32]) -> SameAnswer {
        let mut answer = itself::same(first, second, left, right);
        if answer.code == SAME {
            answer.words[2..4].fill(LINE_WORDS as i64);
        }
        answer
    }
}

/// There seems to be room where only the caps are missing; what has no room is not written.
struct RoomBySeven;
impl Mistake for RoomBySeven {
    fn plan(sheet: &[u8], space: &mut [i32]) -> PlanAnswer {
        let words = space.len() / LINE_WORDS * CAPPED_WORDS;
        let mut wider = space.to_vec();
        wider.resize(words.max(space.len()), 0);
        let answer = itself::plan(sheet, &mut wider);
        if answer.words[5] == CAPPED_WORDS as i64 {
            space.copy_from_slice(&wider[..space.len()]);
            return answer;
        }
        itself::plan(sheet, space)
    }
}

/// There seems to be no room where caps would have none, though the sheet has no last line.
struct RoomByEight;
impl Mistake for RoomByEight {
    fn plan(sheet: &[u8], space: &mut [i32]) -> PlanAnswer {
        let room = space.len() / CAPPED_WORDS;
        match reference::read(sheet) {
            Ok(read) if read.last.is_none() => itself::plan(sheet, &mut space[..room * LINE_WORDS]),
            _ => itself::plan(sheet, space),
        }
    }
}

struct NoneBeside9;
impl Mistake for NoneBeside9 {
    fn plan(sheet: &[u8], space: &mut [i32]) -> PlanAnswer {
        let mut answer = itself::plan(sheet, space);
        if answer.code == 9 {
            answer.words[5] = UNTOUCHED;
        }
        answer
    }
}

// ---------------------------------------------------------------- Reading

const LAST: &str = "last=";

/// The lines of a sheet, changed; the original where they are no text.
pub fn with_lines(sheet: &[u8], change: impl FnOnce(&mut Vec<String>)) -> Vec<u8> {
    let Ok(text) = std::str::from_utf8(sheet) else {
        return sheet.to_vec();
    };
    let lines = text.split_inclusive('\n').map(str::to_string);
    let mut lines: Vec<String> = lines.collect();
    change(&mut lines);
    lines.concat().into_bytes()
}

/// The sheet with other items in its last line.
fn with_items(sheet: &[u8], change: impl Fn(&mut Vec<&str>)) -> Vec<u8> {
    with_lines(sheet, |lines| {
        for line in lines {
            let items = line.strip_prefix(LAST);
            if let Some(items) = items.and_then(|items| items.strip_suffix('\n')) {
                let mut items = items.split(',').collect();
                change(&mut items);
                *line = format!("{LAST}{}\n", items.join(","));
            }
        }
    })
}

/// A moment that hardly holds anything.
const LATE: &str = "100000";

/// An absent moment allows everything.
struct AbsentMoment;
impl Mistake for AbsentMoment {
    fn taken(sheet: &[u8]) -> Vec<u8> {
        with_items(sheet, |items| {
            let absent = items.iter_mut().filter(|item| **item == "-");
            absent.for_each(|item| *item = LATE);
        })
    }
}

/// So does one that is missing at the end of the line.
struct MissingMoments;
impl Mistake for MissingMoments {
    fn taken(sheet: &[u8]) -> Vec<u8> {
        let completed = |count| with_items(sheet, |items| items.resize(count, LATE));
        let mut more = (1..=SIZE).map(completed);
        let longer = |taken: &Vec<u8>| taken.len() > sheet.len();
        let good = more.find(|taken| longer(taken) && reference::read(taken).is_ok());
        good.unwrap_or(sheet.to_vec())
    }
}

/// Beside an absent moment none is looked at.
struct FiveBefore4;
impl Mistake for FiveBefore4 {
    fn taken(sheet: &[u8]) -> Vec<u8> {
        with_items(sheet, |items| {
            let far = |item: &str| item.parse().is_ok_and(|v: i64| v.abs() > LIMIT);
            if items.contains(&"-") {
                let beyond = items.iter_mut().filter(|item| far(item));
                beyond.for_each(|item| *item = LATE);
            }
        })
    }
}

/// A last line may stand before the land lines, or before any.
struct Anywhere;
impl Mistake for Anywhere {
    fn taken(sheet: &[u8]) -> Vec<u8> {
        with_lines(sheet, |lines| {
            lines.sort_by_key(|line| line.starts_with(LAST));
        })
    }
}

/// Of two last lines the first counts.
struct Twice;
impl Mistake for Twice {
    fn taken(sheet: &[u8]) -> Vec<u8> {
        with_lines(sheet, |lines| {
            lines.dedup_by(|line, before| [line, before].iter().all(|l| l.starts_with(LAST)));
        })
    }
}
