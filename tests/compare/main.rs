//! Compares an implementation of document 01 with a plain one, on sheets made for it.
//!
//! - `compare [SECONDS] [SEED]` compares the generator of sheets, then all else for about SECONDS seconds (4)
//! - `compare --self` checks the reference, the search and the plain generator by themselves, and that they
//!   notice wrong programs
//! - `compare --time FILE..` times planning of each sheet; none may take longer than 0.1 s
//! - `compare --plan`, `compare --kept` write the reference's text for the sheet on standard input

mod cases;
mod compare;
#[cfg(linked)]
mod ffi;
#[path = "../../bench/hire.rs"]
mod generator;
mod hire;
mod itself;
mod land;
mod last;
mod latest;
mod met;
mod reference;
mod rule;
mod search;
mod sheets;
mod spares;
mod under_test;
mod wrong;
mod wrong_hire;
mod wrong_last;
mod wrong_rule;
mod wrong_spares;

use cases::Checks;
use compare::{Searched, Seen, Trial};
use itself::REFERENCE;
use met::Met;
use reference::REFUSALS;
use sheets::{RULE, Random};
use std::io::Read;
use std::process::ExitCode;
use std::time::{Duration, Instant};
use under_test::{DIFFERENT, Operations, PlanAnswer, SAME, SECOND, UNDER_TEST, UNLIKE};

const USAGE: &str = "usage: compare [SECONDS] [SEED] | --self | --time FILE.. | --plan | --kept";
const SECONDS: f64 = 4.0;
const SEED: u64 = 1;
/// Plannings of a sheet that are timed; the longest counts.
const TIMED: usize = 15;
/// No timed sheet may take longer.
const LONGEST: Duration = Duration::from_millis(100);
/// Words lent to a timed planning, enough for any list.
const TIMED_SPACE: usize = 1 << 21;
/// Differences that are printed in full.
const SHOWN: u64 = 3;
/// Pairs of small sheets that `--self` searches.
const SELF_PAIRS: u64 = 600;
/// Sheets among which `--self` wants to meet all kinds.
const SELF_SHEETS: u64 = 4_000;
/// Trials in which `--self` compares the reference with itself, and each wrong program with it.
const SELF_COMPARED: u64 = 2_400;

fn main() -> ExitCode {
    let arguments: Vec<String> = std::env::args().skip(1).collect();
    let arguments: Vec<&str> = arguments.iter().map(String::as_str).collect();
    match arguments[..] {
        ["--self"] => run_self(),
        ["--time", ref files @ ..] => run_time(files),
        ["--plan"] => write_text(reference::plan_text),
        ["--kept"] => write_text(reference::kept_text),
        [] => run(SECONDS, SEED),
        [seconds] => seconds
            .parse()
            .map_or_else(|_| usage(), |seconds| run(seconds, SEED)),
        [seconds, seed] => match (seconds.parse(), seed.parse()) {
            (Ok(seconds), Ok(seed)) => run(seconds, seed),
            _ => usage(),
        },
        _ => usage(),
    }
}

fn usage() -> ExitCode {
    eprintln!("{USAGE}");
    ExitCode::from(2)
}

/// Reads at most one byte more than a sheet may have: an endless input ends too.
fn write_text(text: fn(&[u8]) -> String) -> ExitCode {
    let mut sheet = Vec::new();
    let mut input = std::io::stdin().take(reference::LONGEST_SHEET as u64 + 1);
    if let Err(error) = input.read_to_end(&mut sheet) {
        eprintln!("compare: {error}");
        return ExitCode::FAILURE;
    }
    print!("{}", text(&sheet));
    ExitCode::SUCCESS
}

/// The last line of every run.
fn verdict(passed: u64, failed: u64) -> ExitCode {
    println!("{passed} passed, {failed} failed");
    ExitCode::from(u8::from(failed > 0))
}

// ---------------------------------------------------------------- compare --time

fn run_time(files: &[&str]) -> ExitCode {
    let mut checks = Checks::default();
    for file in files {
        let sheet = std::fs::read(file).unwrap_or_default();
        let (answer, longest) = timed(&sheet);
        let [deviation, steps, selections, count, ..] = answer.words;
        let good = answer.code == 0 && longest <= LONGEST;
        let ms = longest.as_secs_f64() * 1e3;
        let code = answer.code;
        let what = format!(
            "{file}: {ms:.2} ms, code {code}, Δ {deviation}, steps {steps}, selections {selections}, count {count}"
        );
        println!("{what}");
        checks.check(&what, good);
    }
    verdict(checks.passed, checks.failed)
}

/// The answer of planning a sheet, and the longest of its times by the wall clock.
fn timed(sheet: &[u8]) -> (PlanAnswer, Duration) {
    let mut space = vec![0; TIMED_SPACE];
    let mut answer = (UNDER_TEST.plan)(sheet, &mut space);
    let mut longest = Duration::ZERO;
    for _ in 0..TIMED {
        let start = Instant::now();
        answer = (UNDER_TEST.plan)(sheet, &mut space);
        longest = longest.max(start.elapsed());
    }
    (answer, longest)
}

// ---------------------------------------------------------------- compare --self

fn run_self() -> ExitCode {
    let mut checks = Checks::default();
    cases::run(&mut checks);
    land::run(&mut checks);
    spares::run(&mut checks);
    last::run(&mut checks);
    rule::run(&mut checks);
    check_hire(&mut checks);
    check_search(&mut checks);
    check_sheets(&mut checks);
    check_wrong(&mut checks);
    verdict(checks.passed, checks.failed)
}

/// The plain generator makes what is known, and the comparison finds it equal to itself.
fn check_hire(checks: &mut Checks) {
    let outcomes = hire::facts(&REFERENCE).chain(hire::compared(&REFERENCE, SEED));
    for outcome in outcomes {
        checks.check(
            &format!("hire: {:?}", outcome.as_ref().err()),
            outcome.is_ok(),
        );
    }
}

/// The search against the reference, on a few small sheets.
fn check_search(checks: &mut Checks) {
    let mut searched = Searched::default();
    for number in 0..SELF_PAIRS {
        let result = search_pair(&REFERENCE, number);
        let name = format!("search of pair {number}: {:?}", result.as_ref().err());
        checks.check(&name, result.is_ok());
        searched += result.unwrap_or_default();
    }
    checks.check(
        "equal pairs are met",
        searched.equal_pairs > SELF_PAIRS / 10,
    );
    let unequal = searched.pairs - searched.equal_pairs;
    checks.check("unequal pairs are met", unequal > SELF_PAIRS / 20);
    checks.check(
        "unlike pairs are met",
        searched.unlike_pairs > SELF_PAIRS / 20,
    );
    let [all, equal] = [searched.two_rules, searched.two_rules_equal];
    checks.check("equal pairs of two rules are met", equal > SELF_PAIRS / 50);
    checks.check("other pairs of two rules are met", all > equal);
}

/// What the search says of a program on two small sheets.
fn search_pair(tried: &Operations, number: u64) -> Result<Searched, String> {
    let mut random = Random::new(SEED, number);
    let draft = sheets::tiny(&mut random);
    let (other, _) = sheets::related(&mut random, &draft);
    compare::compare_pair(tried, &draft, &other, &mut random)
}

/// The sheets reach all that `--self` wants to meet; the comparison finds the reference equal to itself.
fn check_sheets(checks: &mut Checks) {
    let mut met = Met::default();
    for number in 0..SELF_SHEETS {
        let mut random = Random::new(SEED, number);
        match compare::trial(number, &mut random) {
            Trial::Sheet(sheet) => {
                if number < SELF_COMPARED {
                    let same = compare::compare_sheet(&REFERENCE, &sheet, &mut random);
                    checks.check(&format!("sheet {number} with itself"), same.is_ok());
                }
                met.sheet(&sheet);
            }
            Trial::Two([one, other], known) if number < SELF_COMPARED => {
                let same = compare::compare_two(&REFERENCE, [&one, &other], known, &mut random);
                checks.check(&format!("two sheets {number}: {same:?}"), same.is_ok());
            }
            _ => {}
        }
    }
    met.check(checks);
}

/// Every wrong program is noticed, and one that is wrong in its meaning is also found by search.
fn check_wrong(checks: &mut Checks) {
    let lines_and_spares = || wrong::MEANING.iter().chain(&wrong_spares::MEANING);
    let marked = || lines_and_spares().chain(&wrong_last::MEANING);
    let meaning = || marked().chain(&wrong_rule::MEANING);
    let others = wrong::READING.iter().chain(&wrong_spares::OTHERS);
    let others = others.chain(&wrong_last::OTHERS).chain(&wrong_rule::OTHERS);
    for (name, wrong) in meaning().chain(others) {
        let noticed = (0..SELF_COMPARED).any(|number| noticed(wrong, number));
        checks.check(&format!("noticed: {name}"), noticed);
    }
    for (name, wrong) in meaning() {
        let found = (0..SELF_PAIRS).any(|number| search_pair(wrong, number).is_err());
        checks.check(&format!("found by search: {name}"), found);
    }
    let noticed = |tried| hire::compared(tried, SEED).any(|outcome| outcome.is_err());
    for (name, wrong) in &wrong_hire::HIRING {
        checks.check(&format!("noticed: {name}"), noticed(wrong));
    }
    let name = "not noticed: a program that draws right";
    checks.check(name, !noticed(&wrong_hire::DRAWN_RIGHT));
}

/// Whether a trial tells a program from the reference; the search is left out.
fn noticed(tried: &Operations, number: u64) -> bool {
    let mut random = Random::new(SEED, number);
    match compare::trial(number, &mut random) {
        Trial::Sheet(sheet) => compare::compare_sheet(tried, &sheet, &mut random).is_err(),
        Trial::Two([one, other], known) => {
            compare::compare_two(tried, [&one, &other], known, &mut random).is_err()
        }
        Trial::Pair(..) => false,
    }
}

// ---------------------------------------------------------------- compare

/// What a run has seen so far.
#[derive(Default)]
struct Tally {
    passed: u64,
    failed: u64,
    /// Good sheets, and those refused, in the order of `REFUSALS`.
    good: u64,
    refused: [u64; REFUSALS.len()],
    sizes: [[u64; 6]; 6],
    listed: u64,
    /// Good sheets with land lines, and with an entry in them.
    land: [u64; 2],
    /// Good sheets with a last line, and under rule 2.
    last: u64,
    by_spread: u64,
    /// Good sheets by the number of their spare triggers.
    spares: [u64; 6],
    too_small: u64,
    tests: [u64; 4],
    latest: [u64; 5],
    searched: Searched,
    /// Two sheets: same, other timings, other numbers of triggers or other spares, first refused, second
    /// refused, and how often it was known that the same timings are tightest.
    two: [u64; 5],
    known: u64,
    /// Same and other timings of two sheets of which one alone is under rule 2.
    two_rules: [u64; 2],
    hired: hire::Seen,
}

fn run(seconds: f64, seed: u64) -> ExitCode {
    let mut tally = Tally::default();
    tally.hire(seed);
    let end = Instant::now() + Duration::from_secs_f64(seconds.clamp(0.0, 1e6));
    let named = [
        cases::sheets(),
        land::sheets(),
        spares::sheets(),
        last::sheets(),
        rule::sheets(),
    ];
    let named = named.concat();
    for (number, sheet) in named.into_iter().enumerate() {
        tally.sheet(&sheet, &mut Random::new(seed, number as u64));
    }
    let mut number = 0;
    while Instant::now() < end {
        let mut random = Random::new(seed, number);
        match compare::trial(number, &mut random) {
            Trial::Sheet(sheet) => tally.sheet(&sheet, &mut random),
            Trial::Two(sheets, known) => tally.two([&sheets[0], &sheets[1]], known, &mut random),
            Trial::Pair(one, other) => {
                tally.sheet(&one.write(), &mut random);
                tally.sheet(&other.write(), &mut random);
                tally.pair(&one, &other, &mut random);
            }
        }
        number += 1;
    }
    tally.print(seed);
    verdict(tally.passed, tally.failed)
}

impl Tally {
    /// The generator under test, and the plans of what it makes.
    fn hire(&mut self, seed: u64) {
        let made = hire::facts(&UNDER_TEST).chain(hire::compared(&UNDER_TEST, seed));
        for outcome in made.chain(hire::plans(&UNDER_TEST)) {
            match outcome {
                Ok(seen) => {
                    self.passed += 1;
                    self.hired += seen;
                }
                Err(difference) => self.fail(&[], &difference),
            }
        }
    }

    fn sheet(&mut self, sheet: &[u8], random: &mut Random) {
        match compare::compare_sheet(&UNDER_TEST, sheet, random) {
            Ok(seen) => {
                self.passed += 1;
                self.add(&seen);
            }
            Err(difference) => self.fail(&[sheet], &difference),
        }
    }

    fn two(&mut self, sheets: [&[u8]; 2], known: bool, random: &mut Random) {
        match compare::compare_two(&UNDER_TEST, sheets, known, random) {
            Ok(code) => {
                self.passed += u64::from(code > 0);
                match code {
                    0 => {}
                    SAME..=UNLIKE => self.two[(code - SAME) as usize] += 1,
                    _ => self.two[if code < SECOND { 3 } else { 4 }] += 1,
                }
                self.known += u64::from(known && code == SAME);
                let [one, other] = sheets.map(|sheet| sheet.starts_with(RULE.as_bytes()));
                if one != other && [SAME, DIFFERENT].contains(&code) {
                    self.two_rules[(code - SAME) as usize] += 1;
                }
            }
            Err(difference) => self.fail(&sheets, &difference),
        }
    }

    /// The two sheets were counted when they were compared; a search that fails counts as well.
    fn pair(&mut self, one: &sheets::Draft, other: &sheets::Draft, random: &mut Random) {
        match compare::compare_pair(&UNDER_TEST, one, other, random) {
            Ok(searched) => self.searched += searched,
            Err(difference) => self.fail(&[&one.write(), &other.write()], &difference),
        }
    }

    fn add(&mut self, seen: &Seen) {
        self.good += u64::from(seen.code == 0);
        for (count, refusal) in self.refused.iter_mut().zip(REFUSALS) {
            *count += u64::from(seen.code == refusal);
        }
        if let Some((panels, triggers)) = seen.size {
            self.sizes[panels - 1][triggers - 1] += 1;
            self.spares[seen.spares] += 1;
        }
        self.listed += u64::from(seen.listed);
        self.land[0] += u64::from(seen.land_lines);
        self.land[1] += u64::from(seen.land_rules);
        self.last += u64::from(seen.last_line);
        self.by_spread += u64::from(seen.by_spread);
        self.too_small += seen.too_small;
        let sums = self.tests.iter_mut().chain(&mut self.latest);
        for (sum, count) in sums.zip(seen.tests.into_iter().chain(seen.latest)) {
            *sum += count;
        }
    }

    fn fail(&mut self, sheets: &[&[u8]], difference: &str) {
        self.failed += 1;
        if self.failed > SHOWN {
            return;
        }
        println!("---- difference {}: {difference}", self.failed);
        for sheet in sheets {
            println!("---- sheet of {} bytes\n{}", sheet.len(), shown(sheet));
        }
        println!("----");
    }

    fn print(&self, seed: u64) {
        println!("under test {}, seed {seed}", under_test::NAME);
        let [lines, rules] = self.land;
        println!(
            "good {}, of these with the list compared {}, with land lines {lines}, \
             with land rules {rules}, with a last line {}, under rule 2 {}",
            self.good, self.listed, self.last, self.by_spread
        );
        println!(
            "good by the number of spare triggers, none first: {:?}",
            self.spares
        );
        let refused = REFUSALS.iter().zip(&self.refused);
        let refused: Vec<String> = refused
            .map(|(refusal, count)| format!("{refusal}: {count}"))
            .collect();
        println!("refused {}", refused.join(", "));
        println!("plannings refused with 9: {}", self.too_small);
        let [yes, no, ten, eleven] = self.tests;
        println!("tested timings yes {yes}, no {no}, 10: {ten}, 11: {eleven}");
        let [found, given, nine, ten, eleven] = self.latest;
        println!(
            "latest timings {found}, of these as given {given}, 9: {nine}, 10: {ten}, 11: {eleven}"
        );
        self.print_pairs();
        self.hired.print();
        println!("good sheets by size, panels down, triggers across");
        for row in &self.sizes {
            println!("{}", row.map(|count| format!("{count:6}")).concat());
        }
    }

    /// What was searched, and what two sheets were to one another.
    fn print_pairs(&self) {
        let searched = &self.searched;
        println!(
            "searched {} sheets, {} timings, {} latest ones; {} pairs, {} with equal lists; \
             {} pairs of two rules, {} with equal lists; {} pairs with other triggers or spares",
            searched.sheets,
            searched.timings,
            searched.latest,
            searched.pairs,
            searched.equal_pairs,
            searched.two_rules,
            searched.two_rules_equal,
            searched.unlike_pairs
        );
        let [same, other, unlike, first, second] = self.two;
        println!(
            "two sheets: same timings {same}, of these known {}, others {other}, \
             other triggers or spares {unlike}, first refused {first}, second {second}",
            self.known
        );
        let [same, other] = self.two_rules;
        println!("of these of two rules: same timings {same}, others {other}");
    }
}

impl std::ops::AddAssign for Searched {
    fn add_assign(&mut self, more: Self) {
        self.sheets += more.sheets;
        self.timings += more.timings;
        self.latest += more.latest;
        self.pairs += more.pairs;
        self.equal_pairs += more.equal_pairs;
        self.unlike_pairs += more.unlike_pairs;
        self.two_rules += more.two_rules;
        self.two_rules_equal += more.two_rules_equal;
    }
}

/// A sheet's bytes as text; what is no plain text is escaped.
fn shown(sheet: &[u8]) -> String {
    let lines = sheet.split_inclusive(|&b| b == b'\n');
    lines
        .map(|line| line.escape_ascii().to_string().replace("\\n", "\n"))
        .collect()
}
