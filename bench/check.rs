//! All sides on random sheets: small, with many equal entries, absent ones, after and land rules, last
//! moments, idle triggers, some under rule 2, some with a fault, some with too little space.

use crate::classes;
use crate::plain::{CAPPED_WORDS, LINE_WORDS, MOST};
use crate::random::Random;
use crate::rule::RULE;
use crate::sides::{Answer, KEPT, LATEST, PLAN, SPACE, Task, agreed};

/// Differences that are printed in full.
const SHOWN: usize = 3;

/// Answers by their code, 0 to 14, and those in which the sides differ.
#[derive(Default)]
pub struct Tally {
    plans: Codes,
    tables: Codes,
    latest: Codes,
    /// Plans of sheets with a spare trigger, with a last line, and under rule 2.
    with_spares: usize,
    with_caps: usize,
    under_rule_2: usize,
    differ: usize,
}

type Codes = [usize; 15];

impl Tally {
    /// Compares the stored sheets, then `count` random ones; true if no answer and no word differs.
    pub fn run(mut self, count: usize, seed: u64) -> Result<bool, String> {
        for sheet in classes::all_stored()? {
            self.compare(&sheet, SPACE);
        }
        let mut random = Random { state: seed };
        for _ in 0..count {
            let sheet = sheet(&mut random);
            let lines = *random.pick(&[0, 1, 2, 4, 8, 200, 200, 200]);
            let line_words = *random.pick(&[LINE_WORDS, CAPPED_WORDS]);
            self.compare(&sheet, line_words * lines + random.below(line_words));
        }
        println!("plans by code 0 to 14: {:?}", self.plans);
        println!("kept tables by code 0 to 14: {:?}", self.tables);
        println!("latest times by code 0 to 14: {:?}", self.latest);
        println!("plans with spare triggers: {}", self.with_spares);
        println!("plans with a last line: {}", self.with_caps);
        println!("plans under rule 2: {}", self.under_rule_2);
        println!("different: {}", self.differ);
        Ok(self.differ == 0)
    }

    /// Compares a sheet's plan and its kept table, or their refusals, and a good sheet's latest times.
    fn compare(&mut self, sheet: &[u8], words: usize) {
        let plan = self.compare_in("plan", PLAN, sheet, words);
        let table = self.compare_in("kept table", KEPT, sheet, words);
        count(&mut self.plans, &plan);
        count(&mut self.tables, &table);
        if let Some(Answer { code: 0, words }) = plan {
            self.with_spares += usize::from(words[4] != 0);
            self.with_caps += usize::from(words[5] == CAPPED_WORDS as i64);
            self.under_rule_2 += usize::from(sheet.starts_with(RULE.as_bytes()));
        }
        if table.is_some_and(|answer| answer.code == 0) {
            let latest = self.compare_in("latest times", LATEST, sheet, words);
            count(&mut self.latest, &latest);
        }
    }

    /// What all sides answer, or a difference more.
    fn compare_in(&mut self, name: &str, task: Task, sheet: &[u8], words: usize) -> Option<Answer> {
        let answer = agreed(task, sheet, words);
        self.differ += usize::from(answer.is_none());
        if answer.is_none() && self.differ <= SHOWN {
            let text = String::from_utf8_lossy(sheet);
            println!("different {name} with {words} words:\n{text}");
        }
        answer
    }
}

fn count(codes: &mut Codes, answer: &Option<Answer>) {
    if let Some(answer) = answer {
        codes[answer.code as usize] += 1;
    }
}

/// What a table's items are drawn from.
struct Kind {
    /// The greatest magnitude; a small one makes ties.
    span: i64,
    /// Added to each number.
    shift: i64,
    /// Absent items in a hundred.
    absent: usize,
}

impl Kind {
    fn some(random: &mut Random) -> Kind {
        Kind {
            span: *random.pick(&[0, 1, 1, 2, 2, 5, 40, 1000, 99_000]),
            shift: 0,
            absent: *random.pick(&[0, 0, 10, 30, 60, 85]),
        }
    }

    fn item(&self, random: &mut Random) -> String {
        if random.below(100) < self.absent {
            return "-".into();
        }
        let offset = random.below(2 * self.span as usize + 1) as i64 - self.span;
        (offset + self.shift).to_string()
    }

    /// A line's items, where `idle` does not make them absent.
    fn items(&self, random: &mut Random, idle: &[bool]) -> Vec<String> {
        let item = |idle: &bool| match idle {
            true => "-".into(),
            false => self.item(random),
        };
        idle.iter().map(item).collect()
    }

    fn line(&self, random: &mut Random, key: &str, idle: &[bool]) -> String {
        written(key, &self.items(random, idle))
    }

    /// A line that seldom is all absent.
    fn needed_line(&self, random: &mut Random, key: &str, idle: &[bool]) -> String {
        let mut items = self.items(random, idle);
        let none = items.iter().all(|item| item == "-");
        if let Some(at) = idle.iter().position(|idle| !idle)
            && none
            && random.below(50) != 0
        {
            items[at] = "0".into();
        }
        written(key, &items)
    }
}

fn written(key: &str, items: &[String]) -> String {
    format!("{key}={}\n", items.join(","))
}

/// For each trigger whether it is idle; in two sheets of three none is.
fn idle(random: &mut Random, n: usize) -> Vec<bool> {
    let busy = random.below(n);
    let any = random.below(3) == 0;
    (0..n)
        .map(|j| any && j != busy && random.below(2) == 0)
        .collect()
}

/// A sheet that is good more often than not, one in three under rule 2; one in eight has a byte changed.
fn sheet(random: &mut Random) -> Vec<u8> {
    let (m, n) = (1 + random.below(6), 1 + random.below(6));
    let (none, idle) = ([false; MOST], idle(random, n));
    // Sometimes there are rules for idle triggers, which then are not spare.
    let no_rules = *random.pick(&[&none[..n], &idle, &idle, &idle]);
    let by_spread = random.below(3) == 0;
    let rule = if by_spread { RULE } else { "" };
    let mut text = format!("{rule}panels={m}\ntriggers={n}\n");
    let lag = Kind::some(random);
    (0..m).for_each(|_| text += &lag.needed_line(random, "lag", &idle));
    if !by_spread {
        text += &marks(random, m, n);
    }
    text += &rules(random, &lag, no_rules, m);
    if random.below(3) == 0 {
        let mut last = Kind::some(random);
        // An absent moment is refused.
        last.absent = *random.pick(&[0, 0, 0, 0, 10]);
        text += &last.line(random, "last", &none[..m]);
    }
    let mut bytes = text.into_bytes();
    if random.below(8) == 0 {
        let at = random.below(bytes.len());
        bytes[at] = *random.pick(b"0123456789-,=\nx");
    }
    bytes
}

/// The floor line and the due line.
fn marks(random: &mut Random, m: usize, n: usize) -> String {
    let none = [false; MOST];
    let (floor, mut due) = (Kind::some(random), Kind::some(random));
    due.absent = 0;
    floor.needed_line(random, "floor", &none[..m]) + &due.line(random, "due", &none[..n])
}

/// The after lines, and in every other sheet land lines, without rules for some triggers.
fn rules(random: &mut Random, lag: &Kind, no_rules: &[bool], m: usize) -> String {
    let mut after = Kind::some(random);
    // Rules above 0 make circles that cannot be kept, so most are below.
    after.shift = -after.span.min(500) * *random.pick(&[0, 1, 1, 2]);
    let mut text = String::new();
    for &idle in no_rules {
        let row: Vec<bool> = no_rules.iter().map(|other| idle || *other).collect();
        text += &after.line(random, "after", &row);
    }
    if random.below(2) == 0 {
        let land = land_kind(random, lag);
        for &idle in no_rules {
            text += &land.line(random, "land", &[idle; MOST][..m]);
        }
    }
    text
}

/// Land entries that often are as low as the lags are high, so that they can be kept.
fn land_kind(random: &mut Random, lag: &Kind) -> Kind {
    let mut land = Kind::some(random);
    let lower = lag.span.min(1000) + land.span.min(1000);
    land.shift = -lower * *random.pick(&[0, 1, 1, 1]);
    land
}
