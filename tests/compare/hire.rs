//! Document 02's No. 6, a load the hire shop can repeat: the refusals around the plain generator, which is
//! `bench/hire.rs`; a sheet worked by hand; the comparison of a generator with the plain one; and the plans
//! of the sheets that it makes.

use crate::compare::{plan_answer, same};
use crate::generator::STRIDE;
use crate::itself::{self, REFERENCE};
use crate::reference::{self, LINE_WORDS, SIZE};
use crate::sheets::Random;
use crate::under_test::{Asked, Operations, UNTOUCHED};
use std::collections::HashSet;
use std::iter::once_with;

/// Two panels and two triggers from state 1, worked by hand. Twelve draws, in sheet order:
///
///     item    state       u      by 7  by 2,001
///     lag     2654435770  40503  1     483       -517, never absent
///             1013904243  15470  0     1463      absent
///     lag     3668340012  55974  2     1947      947, never absent
///             2027808485  30941  1     926       -74
///     floor   387276958   5909   1     1907      907, never absent
///             3041712727  46412  2     389       -611
///     due     1401181200  21380  2     1370      370, never absent
///             4055616969  61883  3     1853      853, never absent
///     after   2415085442  36851  3     833       absent on the diagonal
///             774553915   11818  2     1813      absent above it
///     after   3428989684  52322  4     296       -704
///             1788458157  27289  3     1276      absent on the diagonal
const BY_HAND: &str = "\
panels=2
triggers=2
lag=-517,-
lag=947,-74
floor=907,-611
due=370,853
after=-,-
after=-704,-
";
const NEXT_BY_HAND: u32 = 1_788_458_157;

/// Size and lent bytes, with state 1, and the code; where it is 0, the sheet is the one worked by hand, of 93
/// bytes.
const CODES: [([usize; 2], usize, u32); 14] = [
    ([2, 2], 93, 0),
    ([2, 2], 94, 0),
    ([2, 2], 500, 0),
    ([2, 2], 92, 13),
    ([2, 2], 1, 13),
    ([2, 2], 0, 13),
    ([0, 2], 93, 12),
    ([2, 0], 93, 12),
    ([7, 2], 500, 12),
    ([2, 7], 500, 12),
    ([0, 2], 0, 12),
    ([2, 0], 0, 12),
    ([7, 7], 0, 12),
    ([usize::MAX, usize::MAX], 0, 12),
];

/// Chained sheets of a size.
const CHAINED: usize = 1000;

/// Panels and triggers of the sheets that are chained and planned, and how many of each thousand have a
/// spare trigger: all its lags and rules must be absent by 7.
const LOADS: [([usize; 2], usize); 12] = [
    ([6, 6], 0),
    ([1, 1], 0),
    ([1, 2], 11),
    ([1, 3], 0),
    ([2, 1], 0),
    ([2, 2], 0),
    ([2, 3], 0),
    ([3, 1], 0),
    ([3, 2], 0),
    ([3, 3], 0),
    ([1, 6], 0),
    ([6, 1], 0),
];

/// Different sheets of six by six from the states 0 to 999. These differ in their lower 16 bits, which show
/// only in the two draws where they carry. So a load is made by chaining.
const FROM_FIRST_STATES: usize = 3;

/// Random states that are asked of each size.
const RANDOM_STATES: usize = 10;
/// Sizes that are refused; some of them are 1 or 6 when cut to fewer bits.
const STRANGE_SIZES: [usize; 9] = [
    0,
    SIZE + 1,
    8,
    255,
    (1 << 8) + 1,
    (1 << 16) + SIZE,
    (1 << 32) + 1,
    1 << 63,
    usize::MAX,
];

/// Words of a lent answer, and how many are looked at.
const ANSWERS: [usize; 4] = [0, 1, 2, 5];
const LOOKED_AT: usize = 6;
/// Bytes behind the lent ones that are looked at.
const BEHIND: usize = 8;
/// Bytes that hold any sheet of six by six.
const ENOUGH: usize = 512;
/// Words that hold the list of any sheet.
const SPACE: usize = 80 * LINE_WORDS;

/// What was seen, for the counts at the end.
#[derive(Default)]
pub struct Seen {
    /// Sheets written into lent bytes, and refusals 12 and 13.
    written: u64,
    refused: [u64; 2],
    /// Chained sheets that were planned, and those of them with a spare trigger.
    planned: u64,
    spare: u64,
}

impl Seen {
    pub fn print(&self) {
        let [twelve, thirteen] = self.refused;
        println!(
            "made sheets written {}, 12: {twelve}, 13: {thirteen}; \
             chained and planned {}, of these with a spare trigger {}",
            self.written, self.planned, self.spare
        );
    }
}

impl std::ops::AddAssign for Seen {
    fn add_assign(&mut self, more: Self) {
        self.written += more.written;
        self.refused[0] += more.refused[0];
        self.refused[1] += more.refused[1];
        self.planned += more.planned;
        self.spare += more.spare;
    }
}

/// What a comparison saw, or the first difference.
pub type Outcome = Result<Seen, String>;

/// What is returned, and what is left in the lent bytes and words, with a generator of text and next state:
/// "It refuses sizes outside 1 to 6 as 12, then too little space as 13."
pub fn hire_from(
    generator: impl Fn([usize; 2], u32) -> (Vec<u8>, u32),
    asked: Asked,
    bytes: &mut [u8],
    answer: &mut [i64],
) -> u32 {
    if !permitted(asked.size) {
        return 12;
    }
    let (text, next) = generator(asked.size, asked.state);
    if text.len() > bytes.len() {
        return 13;
    }
    bytes[..text.len()].copy_from_slice(&text);
    let words = [text.len() as i64, next.into()];
    let lent = answer.iter_mut().zip(words);
    lent.for_each(|(lent, word)| *lent = word);
    0
}

fn permitted(size: [usize; 2]) -> bool {
    size.iter().all(|k| (1..=SIZE).contains(k))
}

/// What is known of the sheets that a generator makes.
pub fn facts(tried: &Operations) -> impl Iterator<Item = Outcome> {
    let codes = CODES.iter().map(|case| check_by_hand(tried, case));
    let loads = LOADS.iter().map(|load| check_load(tried, load));
    codes.chain(once_with(|| check_states(tried))).chain(loads)
}

/// A generator beside the plain one, in all that is asked of it.
pub fn compared(tried: &Operations, seed: u64) -> impl Iterator<Item = Outcome> {
    let mut random = Random::new(seed, 0);
    let all = asked(&mut random).into_iter();
    all.map(move |asked| compare_asked(tried, asked, &mut random))
}

/// The plans of the chained sheets that an implementation makes.
pub fn plans(tried: &Operations) -> impl Iterator<Item = Outcome> {
    LOADS.iter().flat_map(|&(size, _)| {
        let sheets = chained(tried, size);
        sheets.map(|made| compare_plan(tried, &made?.0))
    })
}

// ---------------------------------------------------------------- What is asked

/// Of every size many states; and sizes that are refused.
fn asked(random: &mut Random) -> Vec<Asked> {
    let any = || (1..=SIZE).chain(STRANGE_SIZES);
    let sizes = any().flat_map(|panels| any().map(move |triggers| [panels, triggers]));
    let mut all = Vec::new();
    for size in sizes {
        let states = if permitted(size) {
            states(size, random)
        } else {
            vec![1]
        };
        all.extend(states.into_iter().map(|state| Asked { size, state }));
    }
    all
}

/// The first two states and the last; for each draw of a sheet those from which it ends just below 2³² and
/// just exceeds 32 bits; and random ones.
fn states([m, n]: [usize; 2], random: &mut Random) -> Vec<u32> {
    let draws = (m * n + m + n + n * n) as u32;
    let before = |state: u32, draws: u32| state.wrapping_sub(draws.wrapping_mul(STRIDE));
    let about = (1..=draws).flat_map(|draws| [before(u32::MAX, draws), before(0, draws)]);
    let random = (0..RANDOM_STATES).map(|_| random.next() as u32);
    let edges = [0, 1, u32::MAX].into_iter();
    edges.chain(about).chain(random).collect()
}

/// How many bytes are lent: none, one less than the text takes, as many, one more, and plenty.
fn rooms(asked: Asked, random: &mut Random) -> Vec<usize> {
    let plenty = ENOUGH + random.below(100);
    let mut answer = [0];
    match itself::hire(asked, &mut [0; ENOUGH], &mut answer) {
        0 => {
            let length = answer[0] as usize;
            vec![0, length - 1, length, length + 1, plenty]
        }
        _ => vec![0, 1, plenty],
    }
}

// ---------------------------------------------------------------- Beside the plain generator

fn compare_asked(tried: &Operations, asked: Asked, random: &mut Random) -> Outcome {
    let mut seen = Seen::default();
    for room in rooms(asked, random) {
        for words in ANSWERS {
            match compare_lent(tried, asked, [room, words], random)? {
                0 => seen.written += 1,
                12 => seen.refused[0] += 1,
                _ => seen.refused[1] += 1,
            }
        }
    }
    Ok(seen)
}

/// Lends so many bytes and words, and looks at what lies behind them too; gives the code.
fn compare_lent(
    tried: &Operations,
    asked: Asked,
    [room, words]: [usize; 2],
    random: &mut Random,
) -> Result<u32, String> {
    let before = (0..room + BEHIND).map(|_| random.next() as u8);
    let mut wanted: Vec<u8> = before.collect();
    let mut bytes = wanted.clone();
    let (mut wanted_answer, mut answer) = ([UNTOUCHED; LOOKED_AT], [UNTOUCHED; LOOKED_AT]);
    let code = itself::hire(asked, &mut wanted[..room], &mut wanted_answer[..words]);
    let got = (tried.hire)(asked, &mut bytes[..room], &mut answer[..words]);
    same("code and answer", &(code, wanted_answer), &(got, answer))
        .and_then(|()| same_bytes("bytes", &wanted, &bytes))
        .map_err(|difference| {
            format!("{asked:?}, {room} bytes and {words} words lent: {difference}")
        })?;
    Ok(code)
}

/// As `same`, told as text, a character for each byte.
fn same_bytes(what: &str, wanted: &[u8], got: &[u8]) -> Result<(), String> {
    if wanted == got {
        return Ok(());
    }
    let text = |bytes: &[u8]| bytes.iter().map(|&b| char::from(b)).collect::<String>();
    same(what, &text(wanted), &text(got))
}

// ---------------------------------------------------------------- What is known

/// A refusal leaves everything, and a success what lies behind the text and the two words.
fn check_by_hand(tried: &Operations, &(size, room, code): &([usize; 2], usize, u32)) -> Outcome {
    let (mut wanted, mut wanted_answer) = (vec![b'x'; room], [UNTOUCHED; 4]);
    let (mut bytes, mut answer) = (wanted.clone(), wanted_answer);
    if code == 0 {
        wanted[..BY_HAND.len()].copy_from_slice(BY_HAND.as_bytes());
        wanted_answer[..2].copy_from_slice(&[BY_HAND.len() as i64, NEXT_BY_HAND.into()]);
    }
    let asked = Asked { size, state: 1 };
    let got = (tried.hire)(asked, &mut bytes, &mut answer);
    let what = format!("by hand, {asked:?}, {room} bytes lent");
    same(&what, &(code, wanted_answer), &(got, answer))?;
    same_bytes(&what, &wanted, &bytes)?;
    Ok(Seen::default())
}

/// A sheet and the next state.
type Made = Result<(Vec<u8>, u32), String>;

fn made(tried: &Operations, asked: Asked) -> Made {
    let (mut bytes, mut answer) = ([0; ENOUGH], [UNTOUCHED; 2]);
    let code = (tried.hire)(asked, &mut bytes, &mut answer);
    let [length, next] = answer;
    let text = bytes.get(..usize::try_from(length).unwrap_or(usize::MAX));
    match (code, text, u32::try_from(next)) {
        (0, Some(text), Ok(next)) => Ok((text.to_vec(), next)),
        _ => Err(format!("{asked:?} gives {code} and {answer:?}")),
    }
}

/// The thousand sheets of a size, from state 1 on, each from the state that the one before returned.
fn chained(tried: &Operations, size: [usize; 2]) -> impl Iterator<Item = Made> {
    let mut state = 1;
    (0..CHAINED).map(move |_| {
        let made = made(tried, Asked { size, state })?;
        state = made.1;
        Ok(made)
    })
}

/// How many different sheets of six by six the first states make, and the chain.
fn check_states(tried: &Operations) -> Outcome {
    let size = [SIZE; 2];
    let first = (0..CHAINED as u32).map(|state| made(tried, Asked { size, state }));
    let found = [different(first)?, different(chained(tried, size))?];
    let wanted = [FROM_FIRST_STATES, CHAINED];
    same("different sheets, not chained and chained", &wanted, &found)?;
    Ok(Seen::default())
}

fn different(made: impl Iterator<Item = Made>) -> Result<usize, String> {
    let sheets: Result<HashSet<Vec<u8>>, String> = made.map(|made| Ok(made?.0)).collect();
    Ok(sheets?.len())
}

/// A load is that of the plain generator, and so many of its sheets have a spare trigger.
fn check_load(tried: &Operations, &(size, spare): &([usize; 2], usize)) -> Outcome {
    let [m, n] = size;
    let what = format!("{CHAINED} sheets of {m} by {n}");
    let mut found = 0;
    for (made, plain) in chained(tried, size).zip(chained(&REFERENCE, size)) {
        let ((text, next), (wanted, wanted_next)) = (made?, plain?);
        same_bytes(&what, &wanted, &text)?;
        same(&what, &wanted_next, &next)?;
        let sheet = reference::read(&text);
        found += usize::from(sheet.is_ok_and(|sheet| sheet.spares() != 0));
    }
    same(&format!("{what} with a spare trigger"), &spare, &found)?;
    Ok(Seen::default())
}

/// "Every sheet so made is accepted and its order can be kept": it is planned, and as by the reference, which
/// takes a quarter of a second for the thousand of six by six.
fn compare_plan(tried: &Operations, sheet: &[u8]) -> Outcome {
    let (mut wanted_space, mut space) = ([77; SPACE], [77; SPACE]);
    let wanted = plan_answer(&reference::plan(sheet, &mut wanted_space));
    let got = (tried.plan)(sheet, &mut space);
    same("code", &0, &wanted.code)
        .and_then(|()| same("plan", &wanted, &got))
        .and_then(|()| same("space", &wanted_space, &space))
        .map_err(|difference| format!("{}: {difference}", sheet.escape_ascii()))?;
    Ok(Seen {
        planned: 1,
        spare: u64::from(wanted.words[4] != 0),
        ..Seen::default()
    })
}
