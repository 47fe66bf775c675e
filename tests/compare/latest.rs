//! Document 02, No. 1, in plain Rust: "the tightest timing none of whose components exceeds the given
//! one and which is at least as late, component by component, as every other such timing". It is found
//! from what a sheet means; of the method it takes the least deviation alone, and no walk or lines.
//!
//! Why it is found so. A timing that keeps the order is tightest when x(j) − q(j) + p(i) − y(i) ≤ Δ
//! for every trigger j that is not spare and every panel i with a floor. Landing y(i) is a(i,k) + x(k)
//! for some k, so this says: each such panel has a trigger k with x(j) ≤ x(k) + a(i,k) + q(j) − p(i) + Δ
//! for every such j. So the tightest timings are those that, for one choice of triggers or another,
//! fulfil rules x(j) ≤ x(k) + c. The rules of the order are such rules too: x(i) ≥ c(i,j) + y(j) is to
//! say that x(k) ≤ x(i) − c(i,j) − a(j,k) for every k. Lowering the given times until the rules of a
//! choice hold gives the latest timing for that choice, or never ends. The one that is asked for is
//! tightest, so it fulfils the rules of some choice; that choice's latest is no earlier, and no choice's
//! latest is later, for each is tightest and exceeds no given time. So it is the largest of them,
//! component by component. A spare time stands in no rule, so that it stays as given: "No. 1 hands that
//! number back".
//!
//! Under No. 7's rule 2 it is tightest when y(h) − y(i) ≤ Δ for all panels h and i, that is, when
//! x(j) + a(h,j) − y(i) ≤ Δ for every trigger j that reaches h: this says the same as before, with −a(h,j) in
//! the place of q(j), once for each such h, and 0 in the place of p(i).
//!
//! By No. 5 it also meets every last moment: y(i) ≤ last(i) is to say that x(k) ≤ last(i) − a(i,k) for
//! every k. These bounds hold as those of the given times do, and the lower of the two is lowered further.

use crate::reference::{self, Line, NoPlan, Sheet, Survey, Table, Tables};

/// "On success the lent space holds the list as after planning"; the count is how much was written, with
/// how many words a line takes.
#[derive(Clone, Debug, PartialEq, Eq)]
pub struct Reached {
    pub count: usize,
    pub line_words: usize,
    pub times: Vec<i64>,
}

/// "The refusals are those of testing, in that order, then 9."
pub fn latest(sheet: &[u8], given: &[i64], space: &mut [i32]) -> Result<Reached, NoPlan> {
    let tables = reference::admitted(sheet, given).map_err(NoPlan::Refused)?;
    let survey = reference::walked(tables);
    finish(&survey, &survey.lines(), given, space)
}

/// The end of it, once the list is known.
pub fn finish(
    survey: &Survey,
    lines: &[Line],
    given: &[i64],
    space: &mut [i32],
) -> Result<Reached, NoPlan> {
    let plan = reference::finish_plan(survey, lines, space)?;
    Ok(Reached {
        count: plan.count,
        line_words: plan.line_words,
        times: times(&survey.tables, given),
    })
}

fn times(tables: &Tables, given: &[i64]) -> Vec<i64> {
    let sheet = &tables.sheet;
    let floors: Vec<usize> = (0..sheet.panels)
        .filter(|&i| sheet.floor[i].is_some())
        .collect();
    let mut rules = order_rules(sheet);
    let mut latest = vec![i64::MIN; given.len()];
    let x = given.iter().enumerate();
    let x = x.map(|(k, time)| allowed(sheet, k).fold(*time, i64::min));
    choose(tables, &floors, &mut rules, x.collect(), &mut latest);
    latest
}

/// The last times of a trigger for the panels that it reaches: none without a last line.
fn allowed(sheet: &Sheet, k: usize) -> impl Iterator<Item = i64> {
    let moments = sheet.last.iter().flatten().zip(&sheet.lag);
    moments.filter_map(move |(last, lags)| Some((*last)? - lags[k]?))
}

/// (j, k, c): x(j) ≤ x(k) + c.
type Rule = (usize, usize, i64);

/// "x(i) ≥ b(i,j) + x(j)" and "x(i) ≥ c(i,j) + y(j)", for every present b(i,j) and c(i,j).
fn order_rules(sheet: &Sheet) -> Vec<Rule> {
    let after = present(&sheet.after).map(|(i, j, b)| (j, i, -b));
    let land = present(&sheet.land).flat_map(|(i, j, c)| {
        let lags = sheet.lag[j].iter().enumerate();
        lags.filter_map(move |(k, a)| a.map(|a| (k, i, -c - a)))
    });
    after.chain(land).collect()
}

/// The present entries of a table, each behind its row and column.
fn present(table: &Table) -> impl Iterator<Item = (usize, usize, i64)> {
    let rows = table.iter().enumerate();
    rows.flat_map(|(i, row)| {
        let entries = row.iter().enumerate();
        entries.filter_map(move |(j, entry)| entry.map(|entry| (i, j, entry)))
    })
}

/// The rules of panel i with trigger k, whose lag is a.
fn panel_rules(tables: &Tables, i: usize, k: usize, a: i64) -> impl Iterator<Item = Rule> {
    let floor = tables.sheet.floor[i].expect("the panel has a floor");
    let by = a + tables.deviation - floor;
    let measured = measured(&tables.sheet).into_iter();
    measured.map(move |(j, from)| (j, k, by + from))
}

/// What each trigger is measured from: its due mark, or under rule 2 where it would have to be fired to land at 0,
/// for each panel that it reaches.
fn measured(sheet: &Sheet) -> Vec<(usize, i64)> {
    if sheet.by_spread {
        return present(&sheet.lag).map(|(_, j, a)| (j, -a)).collect();
    }
    let due = |j: usize| sheet.due[j].expect("due marks are present");
    sheet.in_use().map(|j| (j, due(j))).collect()
}

/// Raises `latest` to the latest times for the rules and any choice of triggers for the panels that are
/// left, none of them above `x`.
fn choose(
    tables: &Tables,
    floors: &[usize],
    rules: &mut Vec<Rule>,
    x: Vec<i64>,
    latest: &mut [i64],
) {
    let Some(x) = lowered(rules, x) else { return };
    // More rules give no later times than these.
    if x.iter().zip(&*latest).all(|(x, latest)| x <= latest) {
        return;
    }
    let Some((&i, later)) = floors.split_first() else {
        (0..x.len()).for_each(|j| latest[j] = latest[j].max(x[j]));
        return;
    };
    for (k, lag) in tables.sheet.lag[i].iter().enumerate() {
        if let Some(a) = *lag {
            let before = rules.len();
            rules.extend(panel_rules(tables, i, k, a));
            choose(tables, later, rules, x.clone(), latest);
            rules.truncate(before);
        }
    }
}

/// The latest times that fulfil the rules, none of them above `x`. Without a circle of rules that adds
/// up to less than 0 a time is lowered along paths that repeat no trigger, so that n rounds are enough;
/// with one there are no such times.
fn lowered(rules: &[Rule], mut x: Vec<i64>) -> Option<Vec<i64>> {
    for _ in 0..x.len() {
        for &(j, k, c) in rules {
            x[j] = x[j].min(x[k] + c);
        }
    }
    let fulfilled = rules.iter().all(|&(j, k, c)| x[j] <= x[k] + c);
    fulfilled.then_some(x)
}
