//! One sheet, the reference's answers and those of the implementation tried.

use crate::last;
use crate::latest::{self, Reached};
use crate::reference::{
    self, CAPPED_WORDS, Compared, LINE_WORDS, Likeness, Line, NoPlan, NotCompared, Plan, Refusal,
    Sheet, Survey,
};
use crate::rule;
use crate::search::{self, Found};
use crate::sheets::{self, Draft, Random};
use crate::spares;
use crate::under_test::{DIFFERENT, KeptAnswer, LatestAnswer, NO, Operations, PlanAnswer, SAME};
use crate::under_test::{SECOND, SameAnswer, UNLIKE, UNTOUCHED, YES};

/// The literal list takes time with the square of the candidates. On a sheet with more selections
/// than this only Δ, the kept table, steps and selections are compared, and tested timings; so a
/// sheet takes some milliseconds at most.
const LISTED_SELECTIONS: u64 = 200;

/// What stands in a good sheet with land lines and in no other.
const LAND: &[u8] = b"land=";

/// Space that is enough for any list of a small sheet.
const SEARCH_LINES: usize = 64;
const SEARCH_SPACE: usize = SEARCH_LINES * CAPPED_WORDS;

/// How many times are tested on a sheet that is refused.
const TIMES_OF_NONE: usize = 2;

/// Within what random weights and times lie.
const SPREADS: [i64; 6] = [1, 3, 10, 100, 100_000, 1_000_000];

/// What was seen on one sheet, for the counts at the end.
#[derive(Default)]
pub struct Seen {
    /// 0 for a good sheet, or the refusal.
    pub code: u32,
    /// Panels and triggers of a good sheet.
    pub size: Option<(usize, usize)>,
    /// Whether the list itself was compared.
    pub listed: bool,
    /// Whether a good sheet has land lines, and an entry in them.
    pub land_lines: bool,
    pub land_rules: bool,
    /// Whether it has a last line.
    pub last_line: bool,
    /// Whether it is under rule 2.
    pub by_spread: bool,
    /// How many triggers of a good sheet are spare.
    pub spares: usize,
    /// Plannings refused with 9.
    pub too_small: u64,
    /// Answers of the test operation: yes, no, 10, 11.
    pub tests: [u64; 4],
    /// Answers of the latest operation: times, of these those given, 9, 10, 11.
    pub latest: [u64; 5],
}

// ------------------------------------------- The reference's answers as words

/// What the answer must hold: a refusal changes no word, but for 9 the count and how many words a line takes.
pub fn plan_answer(answer: &Result<Plan, NoPlan>) -> PlanAnswer {
    let mut words = [UNTOUCHED; 8];
    let code = match answer {
        Ok(plan) => {
            words[0] = plan.deviation;
            words[1] = plan.steps as i64;
            words[2] = plan.selections as i64;
            words[3] = plan.count as i64;
            words[4] = plan.spares.into();
            words[5] = plan.line_words as i64;
            0
        }
        Err(NoPlan::Refused(number)) => *number,
        Err(NoPlan::SpaceTooSmall { count, line_words }) => {
            words[3] = *count as i64;
            words[5] = *line_words as i64;
            9
        }
    };
    PlanAnswer { code, words }
}

pub fn kept_answer(answer: &Result<Survey, Refusal>) -> KeptAnswer {
    let mut words = [UNTOUCHED; 18];
    let survey = match answer {
        Ok(survey) => survey,
        Err(code) => return KeptAnswer { code: *code, words },
    };
    let panels = survey.panels();
    words[..16].fill(0);
    words[0] = survey.deviation();
    words[1] = survey.walk.steps as i64;
    words[2] = survey.selections() as i64;
    words[3] = panels.len() as i64;
    for (i, (byte, count)) in panels.iter().enumerate() {
        words[4 + 2 * i] = i64::from(*byte);
        words[5 + 2 * i] = i64::from(*count);
    }
    KeptAnswer { code: 0, words }
}

pub fn test_answer(answer: Result<bool, Refusal>) -> u32 {
    match answer {
        Ok(true) => YES,
        Ok(false) => NO,
        Err(number) => number,
    }
}

pub fn latest_answer(answer: &Result<Reached, NoPlan>) -> LatestAnswer {
    let mut words = [UNTOUCHED; 10];
    match answer {
        Ok(reached) => {
            words[..7].fill(0);
            words[0] = reached.count as i64;
            words[1..=reached.times.len()].copy_from_slice(&reached.times);
            words[7] = reached.line_words as i64;
            LatestAnswer { code: 0, words }
        }
        Err(refused) => {
            // The two words of 9 alone.
            let planned = plan_answer(&Err(*refused));
            words[0] = planned.words[3];
            words[7] = planned.words[5];
            LatestAnswer {
                code: planned.code,
                words,
            }
        }
    }
}

pub fn same_answer(answer: &Result<Compared, NotCompared>) -> SameAnswer {
    let mut words = [UNTOUCHED; 6];
    let (code, at, refused) = match answer {
        Ok((likeness, counts, line_words)) => {
            words[..2].copy_from_slice(&counts.map(|count| count as i64));
            words[2..4].copy_from_slice(&line_words.map(|words| words as i64));
            let code = match likeness {
                Likeness::Same => SAME,
                Likeness::Different => DIFFERENT,
                Likeness::Unlike => UNLIKE,
            };
            return SameAnswer { code, words };
        }
        Err(NotCompared::First(refused)) => (0, 0, refused),
        Err(NotCompared::Second(refused)) => (SECOND, 1, refused),
    };
    // 9's count and the words of a line alone.
    let planned = plan_answer(&Err(*refused));
    words[at] = planned.words[3];
    words[2 + at] = planned.words[5];
    SameAnswer {
        code: code + planned.code,
        words,
    }
}

// ---------------------------------------------------------------- One sheet

/// Compares everything on one sheet; the error tells the first difference.
pub fn compare_sheet(
    tried: &Operations,
    sheet: &[u8],
    random: &mut Random,
) -> Result<Seen, String> {
    let survey = reference::survey(sheet);
    let mut seen = Seen {
        code: survey.as_ref().err().copied().unwrap_or(0),
        ..Seen::default()
    };
    same("kept", &kept_answer(&survey), &(tried.kept)(sheet))?;
    let lines = match &survey {
        Err(number) => {
            compare_refused_plan(tried, sheet, *number, random)?;
            compare_latest(tried, sheet, None, random, &mut seen)?;
            Vec::new()
        }
        Ok(survey) => compare_good(tried, sheet, survey, random, &mut seen)?,
    };
    for _ in 0..3 {
        compare_test(tried, sheet, &lines, random, &mut seen)?;
    }
    Ok(seen)
}

/// Compares plans and latest timings of a good sheet; gives its lines, none where it has many
/// selections.
fn compare_good(
    tried: &Operations,
    sheet: &[u8],
    survey: &Survey,
    random: &mut Random,
    seen: &mut Seen,
) -> Result<Vec<Line>, String> {
    let read = &survey.tables.sheet;
    seen.size = Some((read.panels, read.triggers));
    seen.land_lines = sheet.windows(LAND.len()).any(|bytes| bytes == LAND);
    seen.land_rules = read.has_land_rules();
    seen.last_line = read.last.is_some();
    seen.by_spread = read.by_spread;
    seen.spares = read.spares().count_ones() as usize;
    if survey.selections() > LISTED_SELECTIONS {
        return Ok(Vec::new());
    }
    let lines = survey.lines();
    spares::check_over_the_others(survey, &lines)?;
    compare_plans(tried, sheet, survey, &lines, random, seen)?;
    compare_latest(tried, sheet, Some((survey, &lines)), random, seen)?;
    last::check(tried, sheet, read, &lines, random)?;
    rule::check(tried, sheet, survey, &lines, random)?;
    seen.listed = true;
    Ok(lines)
}

pub fn same<T>(what: &str, wanted: &T, got: &T) -> Result<(), String>
where
    T: PartialEq + std::fmt::Debug + ?Sized,
{
    if wanted == got {
        return Ok(());
    }
    Err(format!(
        "{what}\n  reference  {wanted:?}\n  tried      {got:?}"
    ))
}

/// Words to lend, filled so that every change is seen.
fn lent_space(random: &mut Random, words: usize) -> Vec<i32> {
    (0..words).map(|_| random.next() as i32).collect()
}

fn compare_refused_plan(
    tried: &Operations,
    sheet: &[u8],
    number: Refusal,
    random: &mut Random,
) -> Result<(), String> {
    let words = *random.pick(&[0, 1, 7, 20, 70]);
    let before = lent_space(random, words);
    let mut space = before.clone();
    let got = (tried.plan)(sheet, &mut space);
    same("plan", &plan_answer(&Err(NoPlan::Refused(number))), &got)?;
    same("space after a refused plan", &before, &space)
}

/// The words of a space that holds a list, and of any space: one in which a word or a line is missing, or
/// the caps, among others.
fn enough_and_any(count: usize, line_words: usize, random: &mut Random) -> [usize; 2] {
    let needed = count * line_words;
    let enough = needed + *random.pick(&[0, 0, 1, 6, 7, 30]);
    let any = match random.below(6) {
        0 => 0,
        1 => needed - 1,
        2 => needed - line_words,
        3 => random.below(needed),
        4 => count * LINE_WORDS,
        _ => needed + random.below(100),
    };
    [enough, any]
}

/// Plans once with a space that holds the list and once with any space.
fn compare_plans(
    tried: &Operations,
    sheet: &[u8],
    survey: &Survey,
    lines: &[Line],
    random: &mut Random,
    seen: &mut Seen,
) -> Result<(), String> {
    let line_words = survey.tables.sheet.line_words();
    for words in enough_and_any(lines.len(), line_words, random) {
        let mut wanted_space = lent_space(random, words);
        let mut space = wanted_space.clone();
        let wanted = plan_answer(&reference::finish_plan(survey, lines, &mut wanted_space));
        let got = (tried.plan)(sheet, &mut space);
        same(&format!("plan, {words} words lent"), &wanted, &got)?;
        same(&format!("space of {words} words"), &wanted_space, &space)?;
        seen.too_small += u64::from(wanted.code == 9);
    }
    Ok(())
}

// ---------------------------------------------------------------- Two sheets

/// Compares two sheets, in spaces that hold the lists or hardly do not; gives the code. Sheets with
/// many selections are passed over, with 0.
pub fn compare_two(
    tried: &Operations,
    [first, second]: [&[u8]; 2],
    known_same: bool,
    random: &mut Random,
) -> Result<u32, String> {
    let (Some(mut wanted_left), Some(mut wanted_right)) =
        (lent_for(first, random), lent_for(second, random))
    else {
        return Ok(0);
    };
    let (mut left, mut right) = (wanted_left.clone(), wanted_right.clone());
    let wanted = reference::same(first, second, &mut wanted_left, &mut wanted_right);
    let got = (tried.same)(first, second, &mut left, &mut right);
    same("two sheets", &same_answer(&wanted), &got)?;
    same("left space", &wanted_left, &left)?;
    same("right space", &wanted_right, &right)?;
    if known_same && [DIFFERENT, UNLIKE].contains(&got.code) {
        return Err("other timings after a change that keeps them".to_string());
    }
    Ok(got.code)
}

/// A space for a sheet's list, sometimes too small; none where listing would take long.
fn lent_for(sheet: &[u8], random: &mut Random) -> Option<Vec<i32>> {
    let needed = match reference::survey(sheet) {
        Ok(survey) if survey.selections() > LISTED_SELECTIONS => return None,
        Ok(survey) => survey.lines().len() * survey.tables.sheet.line_words(),
        Err(_) => LINE_WORDS,
    };
    let words = match random.below(16) {
        0 => needed - 1,
        1 => random.below(needed),
        _ => needed + *random.pick(&[0, 0, 1, 7, 30]),
    };
    Some(lent_space(random, words))
}

// ---------------------------------------------------------------- Tested timings

fn compare_test(
    tried: &Operations,
    sheet: &[u8],
    lines: &[Line],
    random: &mut Random,
    seen: &mut Seen,
) -> Result<(), String> {
    let read = reference::read(sheet).ok();
    let times = timing_to_test(read.as_ref(), lines, random);
    let wanted = test_answer(reference::test(sheet, &times));
    let got = (tried.test)(sheet, &times);
    same(&format!("test of times {times:?}"), &wanted, &got)?;
    match wanted {
        YES => seen.tests[0] += 1,
        NO => seen.tests[1] += 1,
        10 => seen.tests[2] += 1,
        11 => seen.tests[3] += 1,
        _ => {}
    }
    Ok(())
}

/// A timing near the tightest ones, on a sheet with a last line near those in time, sometimes moved to the
/// limits, with a word beyond the limit, or with another number of times.
fn timing_to_test(sheet: Option<&Sheet>, lines: &[Line], random: &mut Random) -> Vec<i64> {
    let strange = [
        i64::MIN,
        i64::MAX,
        i64::from(i32::MIN),
        1_000_000_001,
        1 << 32,
    ];
    let n = sheet.map_or(TIMES_OF_NONE, |sheet| sheet.triggers);
    let weights = weights_to_test(sheet, lines, random);
    let mut times = combined(n, lines, &weights, random);
    if random.chance(40) {
        times[random.below(n)] += random.between(-2, 2);
    }
    if random.chance(20) {
        move_to_limit(&mut times, random);
    }
    if random.chance(5) {
        times[random.below(n)] = *random.pick(&strange);
    }
    // What would stand behind the times: zeros above all, which must not be made up.
    if random.chance(5) {
        let count = *random.pick(&[0, 1, 2, 5, 6, 7, 8, 100]);
        times.resize(count, *random.pick(&[0, 0, i64::MIN]));
    }
    times
}

/// Weights for the lines, about their caps where they have some.
fn weights_to_test(sheet: Option<&Sheet>, lines: &[Line], random: &mut Random) -> Vec<i64> {
    let spread = *random.pick(&SPREADS);
    let mut weight = |line: &Line| match sheet.and_then(|sheet| reference::cap(sheet, line)) {
        Some(cap) => last::weight_about(cap, spread, random),
        None => random.between(-spread, spread),
    };
    lines.iter().map(&mut weight).collect()
}

/// The combination of the lines with some weights; any times where no line has a component, as at a spare
/// place.
pub fn combined(n: usize, lines: &[Line], weights: &[i64], random: &mut Random) -> Vec<i64> {
    let spread = *random.pick(&SPREADS);
    let component = |at: usize| {
        let weighted = lines.iter().zip(weights);
        weighted
            .filter_map(|(line, weight)| line[at].map(|c| c + weight))
            .max()
    };
    (0..n)
        .map(|at| component(at).unwrap_or_else(|| any_time(random, spread)))
        .collect()
}

/// A time within ± `spread`, anywhere or at a limit.
fn any_time(random: &mut Random, spread: i64) -> i64 {
    const LIMIT: i64 = reference::LONGEST_TIME;
    match random.below(4) {
        0 | 1 => random.between(-spread, spread),
        2 => random.between(-LIMIT, LIMIT),
        _ => *random.pick(&[-LIMIT, LIMIT]),
    }
}

/// Moves all times together, so that the greatest or the least is at, beside or beyond the limit.
fn move_to_limit(times: &mut [i64], random: &mut Random) {
    let limit = reference::LONGEST_TIME + random.between(-1, 1);
    let greatest = times.iter().max().copied().unwrap_or(0);
    let least = times.iter().min().copied().unwrap_or(0);
    let by = if random.chance(50) {
        limit - greatest
    } else {
        -limit - least
    };
    times.iter_mut().for_each(|time| *time += by);
}

// ---------------------------------------------------------------- The latest timing

/// Asks for the latest timing in spaces that hold the list or hardly do not. A sheet without a list
/// is a refused one.
fn compare_latest(
    tried: &Operations,
    sheet: &[u8],
    listed: Option<(&Survey, &[Line])>,
    random: &mut Random,
    seen: &mut Seen,
) -> Result<(), String> {
    let read = reference::read(sheet).ok();
    let line_words = read.as_ref().map_or(LINE_WORDS, Sheet::line_words);
    let lines = listed.map_or(&[][..], |(_, lines)| lines);
    for words in enough_and_any(lines.len().max(1), line_words, random) {
        let given = timing_to_reach(read.as_ref(), lines, random);
        let mut wanted_space = lent_space(random, words);
        let mut space = wanted_space.clone();
        let wanted = match (reference::admitted(sheet, &given), listed) {
            (Err(number), _) => Err(NoPlan::Refused(number)),
            (Ok(_), Some((survey, lines))) => {
                latest::finish(survey, lines, &given, &mut wanted_space)
            }
            (Ok(_), None) => unreachable!("a sheet that is refused admits no timing"),
        };
        let got = (tried.latest)(sheet, &given, &mut space);
        let what = format!("latest below {given:?}, {words} words lent");
        same(&what, &latest_answer(&wanted), &got)?;
        same(&format!("{what}, the space"), &wanted_space, &space)?;
        count_latest(&wanted, &given, seen);
    }
    Ok(())
}

fn count_latest(answer: &Result<Reached, NoPlan>, given: &[i64], seen: &mut Seen) {
    match answer {
        Ok(reached) => {
            seen.latest[0] += 1;
            seen.latest[1] += u64::from(reached.times == given);
        }
        Err(NoPlan::SpaceTooSmall { .. }) => seen.latest[2] += 1,
        Err(NoPlan::Refused(10)) => seen.latest[3] += 1,
        Err(NoPlan::Refused(11)) => seen.latest[4] += 1,
        Err(NoPlan::Refused(_)) => {}
    }
}

/// A timing as for a test, often with some times far from the tightest ones: later or earlier,
/// anywhere, or at the limits.
fn timing_to_reach(sheet: Option<&Sheet>, lines: &[Line], random: &mut Random) -> Vec<i64> {
    const LIMIT: i64 = reference::LONGEST_TIME;
    let mut times = timing_to_test(sheet, lines, random);
    let manner = random.below(6);
    for time in &mut times {
        if random.chance(50) {
            match manner {
                0 => *time = time.saturating_add(random.between(0, 5)),
                1 => *time = time.saturating_add(random.between(-300_000, 300_000)),
                2 => *time = random.between(-LIMIT, LIMIT),
                3 => *time = *random.pick(&[-LIMIT, LIMIT]),
                _ => {}
            }
        }
    }
    times
}

// ---------------------------------------------------------------- The search

/// What the search saw.
#[derive(Default)]
pub struct Searched {
    pub sheets: u64,
    pub timings: u64,
    pub latest: u64,
    pub pairs: u64,
    pub equal_pairs: u64,
    /// Pairs of other numbers of triggers, or with other spares.
    pub unlike_pairs: u64,
    /// Pairs of which one sheet alone is under rule 2, and how many of them have equal lists.
    pub two_rules: u64,
    pub two_rules_equal: u64,
}

/// A small sheet and another one, planned and compared by the implementation tried and checked by
/// search.
pub fn compare_pair(
    tried: &Operations,
    one: &Draft,
    other: &Draft,
    random: &mut Random,
) -> Result<Searched, String> {
    let mut searched = Searched {
        sheets: 2,
        ..Searched::default()
    };
    let mut plans = Vec::new();
    for draft in [one, other] {
        let plan = planned(tried, draft)?;
        let sheet = draft.write();
        let tested = |x: &[i64]| tested_tightest(tried, &sheet, x);
        searched.timings += search::check(draft, &plan, random, tested)?;
        if let Ok(found) = &plan {
            search_latest(tried, draft, found, random)?;
            searched.latest += 1;
        }
        plans.push(plan);
    }
    let [first, second] = &plans[..] else {
        unreachable!("there are two plans");
    };
    let wanted = likeness([(one, first), (other, second)], &mut searched)?;
    let (mut left, mut right) = ([0; SEARCH_SPACE], [0; SEARCH_SPACE]);
    let found = (tried.same)(&one.write(), &other.write(), &mut left, &mut right);
    same("two sheets by search", &wanted, &found.code)?;
    Ok(searched)
}

/// What two sheets with their plans are to one another, by search.
fn likeness(
    [(one, first), (other, second)]: [(&Draft, &Result<Found, u32>); 2],
    searched: &mut Searched,
) -> Result<u32, String> {
    match (first, second) {
        (Err(code), _) => Ok(*code),
        (_, Err(code)) => Ok(SECOND + code),
        (Ok(first), Ok(second)) if one.spares() != other.spares() => {
            searched.unlike_pairs = 1;
            // A trigger that is not spare is present in some line, a spare one in none.
            same(
                "equal lists with other spares",
                &false,
                &(first.lines == second.lines),
            )?;
            Ok(UNLIKE)
        }
        (Ok(first), Ok(second)) => {
            let alike = search::check_pair((one, first), (other, second))?;
            searched.pairs = 1;
            searched.equal_pairs = u64::from(alike);
            searched.two_rules = u64::from(one.by_spread != other.by_spread);
            searched.two_rules_equal = searched.two_rules * searched.equal_pairs;
            Ok(if alike { SAME } else { DIFFERENT })
        }
    }
}

/// The latest timing that the implementation tried gives is the one that the search finds.
fn search_latest(
    tried: &Operations,
    draft: &Draft,
    found: &Found,
    random: &mut Random,
) -> Result<(), String> {
    let given: Vec<i64> = (0..draft.triggers())
        .map(|_| random.between(-4, 4))
        .collect();
    let wanted = Reached {
        count: found.lines.len(),
        line_words: line_words(draft),
        times: search::latest(draft, found, &given)?,
    };
    let got = (tried.latest)(&draft.write(), &given, &mut [0; SEARCH_SPACE]);
    let what = format!("latest below {given:?} by search");
    same(&what, &latest_answer(&Ok(wanted)), &got)
}

/// The plan of the implementation tried, as the search sees it.
fn planned(tried: &Operations, draft: &Draft) -> Result<Result<Found, u32>, String> {
    let mut space = [0; SEARCH_SPACE];
    let answer = (tried.plan)(&draft.write(), &mut space);
    if answer.code != 0 {
        return Ok(Err(answer.code));
    }
    let count = usize::try_from(answer.words[3]).unwrap_or(usize::MAX);
    if count > SEARCH_LINES {
        return Err(format!("count {count} is more than the space holds"));
    }
    let spares = draft.spares().into_iter().enumerate();
    let byte: i64 = spares.map(|(j, spare)| i64::from(spare) << j).sum();
    same("spare triggers", &byte, &answer.words[4])?;
    let line_words = line_words(draft);
    same("words of a line", &(line_words as i64), &answer.words[5])?;
    let lines = || space.chunks_exact(line_words).take(count);
    let cap = |words: &[i32]| i64::from(words[LINE_WORDS]);
    Ok(Ok(Found {
        deviation: answer.words[0],
        lines: lines()
            .map(|words| components(draft, words))
            .collect::<Result<_, _>>()?,
        caps: draft.last.as_ref().map(|_| lines().map(cap).collect()),
    }))
}

/// How many words a line of the sheet takes in the lent space.
fn line_words(draft: &Draft) -> usize {
    let capped = draft.last.is_some();
    if capped { CAPPED_WORDS } else { LINE_WORDS }
}

/// The components of a line in the space; it must carry the sheet's count of triggers, and absent
/// behind them and at the spare places.
fn components(draft: &Draft, words: &[i32]) -> Result<Vec<Option<i64>>, String> {
    let n = draft.triggers();
    let present = |j: usize| words[1 + j] != i32::MIN;
    let misplaced = |j: usize| (j >= n || draft.is_spare(j)) && present(j);
    if words[0] != n as i32 || (0..reference::SIZE).any(misplaced) {
        return Err(format!("a line holds the words {words:?}"));
    }
    let component = |j: usize| present(j).then_some(i64::from(words[1 + j]));
    Ok((0..n).map(component).collect())
}

fn tested_tightest(tried: &Operations, sheet: &[u8], x: &[i64]) -> bool {
    (tried.test)(sheet, x) == YES
}

// ---------------------------------------------------------------- Which sheets

/// What a run compares next: a sheet, two sheets of which it may be known that the same timings are
/// tightest on both, or two small ones for the search.
pub enum Trial {
    Sheet(Vec<u8>),
    Two([Vec<u8>; 2], bool),
    Pair(Draft, Draft),
}

/// Trial `number` of a run. The search takes the longest, so it gets every twelfth.
pub fn trial(number: u64, random: &mut Random) -> Trial {
    match number % 12 {
        0 => return small_pair(random),
        4 | 8 => return two_sheets(random),
        _ => {}
    }
    Trial::Sheet(match random.below(20) {
        0..=6 => sheets::any_size(random).write(),
        7..=9 => sheets::nearly_tied(random).write(),
        10 | 11 => sheets::at_limits(random).write(),
        12..=18 => {
            let draft = sheets::any_size(random);
            sheets::damaged(random, &draft)
        }
        _ => sheets::raw(random),
    })
}

/// Two small sheets, nearly always related, either of them first.
fn small_pair(random: &mut Random) -> Trial {
    let draft = sheets::tiny(random);
    let other = if random.chance(10) {
        sheets::tiny(random)
    } else {
        sheets::related(random, &draft).0
    };
    if random.chance(50) {
        Trial::Pair(draft, other)
    } else {
        Trial::Pair(other, draft)
    }
}

/// Two related sheets of any size, sometimes with a damaged or another one in the place of either.
fn two_sheets(random: &mut Random) -> Trial {
    let draft = if random.chance(50) {
        sheets::any_size(random)
    } else {
        sheets::nearly_tied(random)
    };
    let (other, known_same) = sheets::related(random, &draft);
    let mut both = [draft.write(), other.write()];
    let at = random.below(2);
    if random.chance(50) {
        both.reverse();
    }
    match random.below(10) {
        0 => both[at] = sheets::damaged(random, &draft),
        1 => both[at] = sheets::any_size(random).write(),
        _ => return Trial::Two(both, known_same),
    }
    Trial::Two(both, false)
}
