//! The meaning of a plan, checked by search on small sheets: document 01's definitions of landing,
//! deviation, order and tightest, with document 02's land rules, spare triggers, last moments and rule 2, over
//! every timing of a window, and none of its method.
//!
//! Why a window is enough. Moving all times together changes neither order nor deviation, so x(1)
//! is 0. What is asked is always whether some timing fulfils one of finitely many systems of rules
//! x(k) − x(j) ≥ c with whole c. If a system can be fulfilled, it has no circle above 0, and
//! "the largest sum of rules along a path without repeats that ends in k" fulfils it. Those times
//! differ by at most n − 1 rules. So with |c| ≤ C all of ±(n − 1)·C is enough, and exact. Let E be
//! the largest entry, absolutely, due marks of spare triggers apart: no rule is about a spare trigger, so
//! its time goes through the whole window and its due mark plays no part.
//! - Order: the rules are the after rules, with C = E, and what the land rules say of each trigger k
//!   that reaches the panel, x(i) − x(k) ≥ c(i,j) + a(j,k), with C = 2·E. Let R be E or 2·E, as there
//!   are land lines. So 8 is right exactly when the window has none.
//! - Least deviation: one from the window for order is at most (n − 1)·R + 3·E, none is below −3·E.
//! - Deviation at most Δ: some choice of a trigger k for each panel i with a floor has
//!   x(k) − x(j) ≥ p(i) − Δ − q(j) − a(i,k) for all j, so C = (n − 1)·R + 6·E.
//! - Under rule 2 none is below 0, one from that window is at most (n − 1)·R + 2·E, and for at most Δ some
//!   choice for each panel i has x(k) − x(j) ≥ a(h,j) − Δ − a(i,k) for every j and panel h that it reaches:
//!   no larger a C.
//! - Combination of lines: each j has a line whose present components fulfil
//!   x(k) − x(j) ≥ line(k) − line(j), so C = D, the largest component absolutely.
//! - Where two such sets differ, one system of the first holds with one rule of each system of the
//!   second broken, and a broken rule is again one, with C + 1.
//! - The latest tightest timing below a given one fulfils one of the systems for Δ, and each of its
//!   components is a given one, at the end of a path of its rules: they differ by at most as much as
//!   the given ones and the n − 1 rules. A spare one is the given one itself.
//!
//! Last moments are about the times themselves: a timing is looked at where it is moved, as a whole, to
//! the last place that is in time, and one further. Every earlier place is in time too, and is a
//! combination within the caps too. The rules are now also such between a time and the clock:
//! x(k) ≤ last(i) − a(i,k), and x(j) ≤ cap + line(j) where a line has no greater weight. A path goes by
//! the clock once, from one of them to another, and adds no more than they differ, and 1 for a broken
//! one. For the latest timing the last moments stand beside the given times.

use crate::last::weight_about;
use crate::reference::largest_allowed;
use crate::sheets::{Draft, Random, Table};

/// The window's search goes up to three triggers.
pub const TRIGGERS: usize = 3;

/// A timing of up to three triggers; unused times are 0.
type Timing = [i64; TRIGGERS];
type Lines = [Vec<Option<i64>>];

/// A plan as the search sees it. Components of a line: one for each trigger, absent for a spare one.
pub struct Found {
    pub deviation: i64,
    pub lines: Vec<Vec<Option<i64>>>,
    /// The cap of each line, where the sheet has a last line.
    pub caps: Option<Vec<i64>>,
}

/// Caps of small sheets, whose entries are within ±50, lie within ± this.
const WEIGHTS: i64 = 4_000;

/// Every timing with x(1) = 0 and the others within ± `window`.
fn timings(n: usize, window: i64) -> impl Iterator<Item = Timing> {
    let side = 2 * window + 1;
    (0..side.pow(n as u32 - 1)).map(move |place| {
        let mut timing = [0; TRIGGERS];
        let mut left = place;
        for time in &mut timing[1..n] {
            *time = left % side - window;
            left /= side;
        }
        timing
    })
}

/// "x(i) ≥ b(i,j) + x(j)" for every present b(i,j), and "x(i) ≥ c(i,j) + y(j)" for every present c(i,j).
fn keeps_order(draft: &Draft, x: &[i64]) -> bool {
    keeps_rules(&draft.after, x, |j| x[j])
        && draft
            .land
            .iter()
            .all(|land| keeps_rules(land, x, |j| landing(draft, x, j)))
}

/// Each time is at least as late as every rule of its row says, behind the time that it is for.
fn keeps_rules(rules: &Table, x: &[i64], time: impl Fn(usize) -> i64) -> bool {
    for (i, row) in rules.iter().enumerate() {
        for (j, rule) in row.iter().enumerate() {
            if rule.is_some_and(|rule| x[i] < rule + time(j)) {
                return false;
            }
        }
    }
    true
}

/// "Landing y(i) is the largest a(i,j) + x(j)."
fn landing(draft: &Draft, x: &[i64], i: usize) -> i64 {
    let row = draft.lag[i].iter().zip(x);
    row.filter_map(|(a, x)| a.map(|a| a + x))
        .max()
        .expect("a panel has a lag")
}

/// "the largest x(j) − q(j) plus the largest p(i) − y(i) over panels with a floor", the first "taken over
/// triggers that are not spare"; under rule 2 "the spread of landings"
fn deviation(draft: &Draft, x: &[i64]) -> i64 {
    if draft.by_spread {
        return spread(draft, x);
    }
    let late = in_use(draft).map(|j| x[j] - draft.due[j]).max();
    let floors = draft.floor.iter().enumerate();
    let short = floors
        .filter_map(|(i, p)| p.map(|p| p - landing(draft, x, i)))
        .max();
    late.expect("a trigger has a lag") + short.expect("there is a floor")
}

/// "latest less earliest"
fn spread(draft: &Draft, x: &[i64]) -> i64 {
    apart((0..draft.panels()).map(|i| landing(draft, x, i)))
}

/// The triggers that are not spare.
fn in_use(draft: &Draft) -> impl Iterator<Item = usize> {
    (0..draft.triggers()).filter(|&j| !draft.is_spare(j))
}

/// The least deviation of the window's timings that keep the order; none if no timing keeps it.
fn least_deviation(draft: &Draft, window: i64) -> Option<i64> {
    let ordered = timings(draft.triggers(), window).filter(|x| keeps_order(draft, x));
    ordered.map(|x| deviation(draft, &x)).min()
}

/// "It is tightest when it keeps the order and no timing that does has a smaller deviation."
fn is_tightest(draft: &Draft, least: i64, x: &[i64]) -> bool {
    keeps_order(draft, x) && deviation(draft, x) == least
}

/// "meets every last moment": no landing is later than allowed, where there is a last line.
fn in_time(draft: &Draft, x: &[i64]) -> bool {
    let meets = |last: &Vec<i64>| (0..draft.panels()).all(|i| landing(draft, x, i) <= last[i]);
    draft.last.iter().all(meets)
}

/// Whether "no landing of that line is later than allowed" with a weight. A panel that the line does not
/// reach has no landing.
fn line_in_time(draft: &Draft, line: &[Option<i64>], weight: i64) -> bool {
    let lands = |lags: &Vec<Option<i64>>| {
        let reached = lags
            .iter()
            .zip(line)
            .filter_map(|(a, c)| Some((*a)? + (*c)?));
        reached.max().map(|lands| weight + lands)
    };
    let landings = || draft.lag.iter().map(lands);
    let moments = draft.last.iter();
    moments
        .flatten()
        .zip(landings())
        .all(|(last, lands)| lands <= Some(*last))
}

fn largest_entry(draft: &Draft) -> i64 {
    let land = draft.land.iter().flatten();
    let tables = draft.lag.iter().chain(&draft.after).chain(land).flatten();
    let due = in_use(draft).map(|j| &draft.due[j]);
    let marks = draft.floor.iter().flatten().chain(due);
    let marks = marks.filter(|_| !draft.by_spread);
    let entries = tables.flatten().chain(marks);
    entries.map(|v| v.abs()).max().expect("panels have lags")
}

/// Half the window for a sheet and its lines, by the bounds above, last moments left out.
fn window(draft: &Draft, lines: &Lines) -> i64 {
    let n = draft.triggers() as i64;
    let entry = largest_entry(draft);
    let order = if draft.land.is_some() { 2 } else { 1 } * entry;
    let component = lines.iter().flatten().flatten().map(|v| v.abs()).max();
    let rule = ((n - 1) * order + 6 * entry).max(component.unwrap_or(0));
    (n - 1) * (rule + 1)
}

/// The last time of each trigger for each panel that it reaches, by the last moments.
fn last_times(draft: &Draft) -> impl Iterator<Item = i64> {
    let moments = draft.last.iter().flatten().zip(&draft.lag);
    moments.flat_map(|(last, lags)| lags.iter().flatten().map(move |a| last - a))
}

/// What the rules by the clock add to the window.
fn clock(draft: &Draft, found: &Found) -> i64 {
    if draft.last.is_none() {
        return 0;
    }
    let capped = found.lines.iter().zip(found.caps.iter().flatten());
    let within_caps = capped.flat_map(|(line, cap)| line.iter().flatten().map(move |c| cap + c));
    apart(last_times(draft).chain(within_caps)) + 1
}

/// How far some numbers are apart.
fn apart(numbers: impl Iterator<Item = i64>) -> i64 {
    let ends = numbers.fold(None, |ends, number| match ends {
        None => Some((number, number)),
        Some((least, most)) => Some((number.min(least), number.max(most))),
    });
    ends.map_or(0, |(least, most)| most - least)
}

/// Whether `x` is the combination of all lines with present weights, none greater than its cap if caps are
/// given: "Every statement on combinations … is about the components that are not spare". The largest
/// weights that fit are present, for a line has a present component and `x` has no absent one.
fn is_combination(draft: &Draft, lines: &Lines, caps: Option<&Vec<i64>>, x: &[i64]) -> bool {
    let mut combined: Timing = [i64::MIN; TRIGGERS];
    for (at, line) in lines.iter().enumerate() {
        let room = line.iter().zip(x).filter_map(|(c, x)| c.map(|c| x - c));
        let Some(room) = room.min() else { return false };
        let weight = caps.map_or(room, |caps| room.min(caps[at]));
        join(&mut combined, line, weight);
    }
    in_use(draft).all(|j| combined[j] == x[j])
}

/// `combined` becomes the componentwise largest of itself and the line with its weight.
fn join(combined: &mut Timing, line: &[Option<i64>], weight: i64) {
    for (at, component) in line.iter().enumerate() {
        if let Some(c) = component {
            combined[at] = combined[at].max(c + weight);
        }
    }
}

/// Random weights for all lines, about their caps where they have some.
fn random_weights(found: &Found, random: &mut Random, reach: i64) -> Vec<i64> {
    let mut weight = |at: usize| match &found.caps {
        Some(caps) => weight_about(caps[at], reach, random),
        None => random.between(-reach, reach),
    };
    (0..found.lines.len()).map(&mut weight).collect()
}

/// The combination of all lines with some weights, and any numbers at the spare places.
fn combination(
    draft: &Draft,
    found: &Found,
    weights: &[i64],
    random: &mut Random,
    reach: i64,
) -> Timing {
    let mut combined = [i64::MIN; TRIGGERS];
    for (line, weight) in found.lines.iter().zip(weights) {
        join(&mut combined, line, *weight);
    }
    for (j, spare) in draft.spares().into_iter().enumerate() {
        if spare {
            combined[j] = random.between(-reach, reach);
        }
    }
    combined
}

/// Holds a plan (or its refusal) against the search. `says_yes` is the test operation: tightest and in time.
/// Gives the number of timings looked at.
pub fn check(
    draft: &Draft,
    plan: &Result<Found, u32>,
    random: &mut Random,
    says_yes: impl Fn(&[i64]) -> bool,
) -> Result<u64, String> {
    let n = draft.triggers();
    let lines = plan.as_ref().map_or(&[][..], |found| &found.lines);
    let window = window(draft, lines);
    // Lines are at least −48·E. A wrong line must not make the window endless.
    if window > 50 * (n as i64) * (largest_entry(draft) + 1) {
        return Err("a line's component is beyond all bounds".to_string());
    }
    let least = least_deviation(draft, window);
    let found = match (plan, least) {
        (Err(8), None) => return Ok(timings(n, window).count() as u64),
        (Ok(found), Some(least)) if found.deviation == least => found,
        (plan, least) => {
            let plan = plan.as_ref().map(|found| found.deviation);
            return Err(format!(
                "least deviation by search {least:?}, by plan {plan:?}"
            ));
        }
    };
    check_caps(draft, found)?;
    let window = window + clock(draft, found);
    let looked = check_window(draft, found, random, window, &says_yes)?;
    check_combinations(draft, found, random, window, &says_yes)?;
    Ok(looked)
}

/// Each cap is "the largest weight for which no landing of that line is later than allowed", found by trying
/// one after the other.
fn check_caps(draft: &Draft, found: &Found) -> Result<(), String> {
    for (line, cap) in found.lines.iter().zip(found.caps.iter().flatten()) {
        let allowed = |weight: &i64| line_in_time(draft, line, *weight);
        let largest = (-WEIGHTS..=WEIGHTS).take_while(allowed).last();
        if largest != Some(*cap) || largest == Some(WEIGHTS) {
            return Err(format!(
                "line {line:?}: cap by search {largest:?}, by plan {cap}"
            ));
        }
    }
    Ok(())
}

/// In the window a timing is tightest exactly when it is a combination of all lines.
fn check_window(
    draft: &Draft,
    found: &Found,
    random: &mut Random,
    window: i64,
    says_yes: &impl Fn(&[i64]) -> bool,
) -> Result<u64, String> {
    let n = draft.triggers();
    let mut looked = 0;
    for x in timings(n, window) {
        let x = &x[..n];
        let tightest = is_tightest(draft, found.deviation, x);
        if tightest != is_combination(draft, &found.lines, None, x) {
            return Err(format!(
                "times {x:?}: tightest {tightest}, combination {}",
                !tightest
            ));
        }
        // The test operation is asked for one timing in 64.
        let asked = random.below(64) == 0;
        let yes = tightest && in_time(draft, x);
        if asked && says_yes(x) != yes {
            return Err(format!("times {x:?}: by search {yes}, tested {}", !yes));
        }
        if tightest && draft.last.is_some() {
            check_moved(draft, found, x, asked.then_some(says_yes))?;
        }
        looked += 1;
    }
    Ok(looked)
}

/// A tightest timing is moved as late as the last moments let it, and 1 later: the first is a combination
/// with weights no greater than the caps, and the second is none.
fn check_moved(
    draft: &Draft,
    found: &Found,
    x: &[i64],
    asked: Option<&impl Fn(&[i64]) -> bool>,
) -> Result<(), String> {
    let moved = |by: i64| -> Vec<i64> { x.iter().map(|x| x + by).collect() };
    let latest = largest_allowed(|by| in_time(draft, &moved(by))).expect("panels have lags");
    for (x, yes) in [(moved(latest), true), (moved(latest + 1), false)] {
        if is_combination(draft, &found.lines, found.caps.as_ref(), &x) != yes {
            return Err(format!("times {x:?}: in time {yes}, by the caps {}", !yes));
        }
        if asked.is_some_and(|says_yes| says_yes(&x) != yes) {
            return Err(format!("times {x:?}: in time {yes}, tested {}", !yes));
        }
    }
    Ok(())
}

/// Random weights give tightest timings, which are in time as long as no weight is greater than its cap.
fn check_combinations(
    draft: &Draft,
    found: &Found,
    random: &mut Random,
    window: i64,
    says_yes: &impl Fn(&[i64]) -> bool,
) -> Result<(), String> {
    let n = draft.triggers();
    let reach = 2 * window + 1;
    for _ in 0..16 {
        let weights = random_weights(found, random, reach);
        let x = combination(draft, found, &weights, random, reach);
        let x = &x[..n];
        if x.contains(&i64::MIN) {
            return Err("a trigger is absent in every line".to_string());
        }
        if !is_tightest(draft, found.deviation, x) {
            return Err(format!("times {x:?} are a combination and not tightest"));
        }
        let caps = found.caps.iter().flatten();
        let yes = caps.zip(&weights).all(|(cap, weight)| weight <= cap);
        if in_time(draft, x) != yes || says_yes(x) != yes {
            return Err(format!("times {x:?}: by weights and caps {yes}"));
        }
    }
    Ok(())
}

/// Document 02, No. 1: of the tightest timings "none of whose components exceeds the given one" the
/// one that is "at least as late, component by component, as every other"; all of them in time, by No. 5.
/// "One always exists."
pub fn latest(draft: &Draft, found: &Found, given: &[i64]) -> Result<Vec<i64>, String> {
    let n = draft.triggers();
    let apart = apart(last_times(draft).chain(given.iter().copied()));
    let mut latest = [i64::MIN; TRIGGERS];
    for x in timings(n, window(draft, &found.lines) + apart) {
        if is_tightest(draft, found.deviation, &x[..n]) {
            // Moved as late as the given times and the last moments let it.
            let by = largest_allowed(|by| {
                let moved = x.map(|x| x + by);
                let exceeds = given.iter().zip(moved).any(|(g, x)| x > *g);
                !exceeds && in_time(draft, &moved[..n])
            });
            let by = by.expect("there is a trigger");
            (0..n).for_each(|j| latest[j] = latest[j].max(x[j] + by));
        }
    }
    let latest = latest[..n].to_vec();
    if !is_tightest(draft, found.deviation, &latest) || !in_time(draft, &latest) {
        return Err(format!("given {given:?}, no timing is the latest"));
    }
    // No. 4: a tested timing "may hold any permitted number there, and No. 1 hands that number back".
    if (0..n).any(|j| draft.is_spare(j) && latest[j] != given[j]) {
        return Err(format!("given {given:?}, another spare time in {latest:?}"));
    }
    Ok(latest)
}

/// Demand 3, where the same triggers are spare: the lists, caps left out, are the same exactly when every
/// timing is tightest on both sheets or on neither, last moments left out. Both plans were checked before.
/// Gives whether every timing is.
pub fn check_pair(one: (&Draft, &Found), other: (&Draft, &Found)) -> Result<bool, String> {
    let n = one.0.triggers();
    let window = window(one.0, &one.1.lines).max(window(other.0, &other.1.lines));
    let tightest =
        |(draft, found): (&Draft, &Found), x: &[i64]| is_tightest(draft, found.deviation, x);
    let parting = timings(n, window).find(|x| tightest(one, x) != tightest(other, x));
    let same_lists = one.1.lines == other.1.lines;
    match parting {
        Some(x) if same_lists => Err(format!(
            "equal lists, but times {x:?} are tightest on one only"
        )),
        None if !same_lists => Err("other lists, but the same timings are tightest".to_string()),
        _ => Ok(same_lists),
    }
}
