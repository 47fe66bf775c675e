//! Sheets to try: good ones of every size, rich in ties and circles, and damaged ones.
//! All come from a seeded generator of random numbers, so that a run can be repeated.

/// The splitmix64 generator.
pub struct Random(u64);

impl Random {
    /// The generator for sheet `number` of a run: each sheet can be made without those before it.
    pub fn new(seed: u64, number: u64) -> Self {
        let mut start = Random(seed);
        let base = start.next();
        Random(base ^ number.wrapping_mul(0xd605_1ba5_35d7_9a2d))
    }

    pub fn next(&mut self) -> u64 {
        self.0 = self.0.wrapping_add(0x9e37_79b9_7f4a_7c15);
        let mut z = self.0;
        z = (z ^ (z >> 30)).wrapping_mul(0xbf58_476d_1ce4_e5b9);
        z = (z ^ (z >> 27)).wrapping_mul(0x94d0_49bb_1331_11eb);
        z ^ (z >> 31)
    }

    /// A number from 0 to `end` − 1.
    pub fn below(&mut self, end: usize) -> usize {
        (self.next() % end as u64) as usize
    }

    /// A number from `low` to `high`, both possible.
    pub fn between(&mut self, low: i64, high: i64) -> i64 {
        low + (self.next() % (high - low + 1) as u64) as i64
    }

    /// True `percent` times in a hundred.
    pub fn chance(&mut self, percent: usize) -> bool {
        self.below(100) < percent
    }

    pub fn pick<'a, T>(&mut self, of: &'a [T]) -> &'a T {
        &of[self.below(of.len())]
    }
}

/// The line with which a sheet under rule 2 begins.
pub const RULE: &str = "rule=2\n";

/// Rows of entries. Absent is `None`.
pub type Table = Vec<Vec<Option<i64>>>;

/// A sheet before it is written.
#[derive(Clone, Debug)]
pub struct Draft {
    /// Whether it begins with rule=2; its floors and due marks are not written then.
    pub by_spread: bool,
    pub lag: Table,
    pub floor: Vec<Option<i64>>,
    pub due: Vec<i64>,
    pub after: Table,
    /// The land lines, where it has some.
    pub land: Option<Table>,
    /// The last moments, where it has a last line.
    pub last: Option<Vec<i64>>,
}

impl Draft {
    pub fn panels(&self) -> usize {
        self.lag.len()
    }

    pub fn triggers(&self) -> usize {
        self.due.len()
    }

    /// The sheet's bytes.
    pub fn write(&self) -> Vec<u8> {
        let rule = if self.by_spread { RULE } else { "" };
        let (m, n) = (self.panels(), self.triggers());
        let mut text = format!("{rule}panels={m}\ntriggers={n}\n");
        self.lag.iter().for_each(|row| text += &written("lag", row));
        if !self.by_spread {
            text += &written("floor", &self.floor);
            text += &written("due", &all_present(&self.due));
        }
        self.after
            .iter()
            .for_each(|row| text += &written("after", row));
        let land = self.land.iter().flatten();
        land.for_each(|row| text += &written("land", row));
        let last = self.last.iter();
        last.for_each(|last| text += &written("last", &all_present(last)));
        text.into_bytes()
    }

    /// Whether nothing on the sheet but its due mark is about a trigger.
    pub fn is_spare(&self, j: usize) -> bool {
        let lags = self.lag.iter().map(|row| row[j]);
        let behind_it = self.after.iter().map(|row| row[j]);
        let waits = self.land.iter().flat_map(|land| &land[j]);
        let rules = self.after[j].iter().chain(waits).copied().chain(behind_it);
        lags.chain(rules).all(|entry| entry.is_none())
    }

    /// The largest lag of a trigger, where it has any.
    fn longest_lag(&self, j: usize) -> Option<i64> {
        self.lag.iter().filter_map(|row| row[j]).max()
    }

    /// Whether rule 2 does not take a trigger: it is not spare and has no lag.
    fn is_lagless(&self, j: usize) -> bool {
        !self.is_spare(j) && self.longest_lag(j).is_none()
    }

    /// The marks that say what rule 2 would. A spare trigger could have any.
    pub fn say_by_marks(&mut self) {
        self.by_spread = false;
        self.floor = vec![Some(0); self.panels()];
        let due = |j: usize| -self.longest_lag(j).unwrap_or(0);
        self.due = (0..self.triggers()).map(due).collect();
    }

    /// Whether its marks say what rule 2 would: every floor is the same, and every due mark as long before one
    /// moment as the largest lag of its trigger.
    fn says_spread(&self) -> bool {
        let in_use = || (0..self.triggers()).filter(|&j| !self.is_spare(j));
        let mut moments = in_use().map(|j| self.longest_lag(j).map(|a| self.due[j] + a));
        let first = moments.next().flatten();
        let floors = self.floor[0].is_some() && self.floor.iter().all(|p| *p == self.floor[0]);
        floors && first.is_some() && moments.all(|moment| moment == first)
    }

    /// For each trigger whether it is spare.
    pub fn spares(&self) -> Vec<bool> {
        (0..self.triggers()).map(|j| self.is_spare(j)).collect()
    }

    /// Land lines that ask nothing.
    pub fn no_land_rules(&self) -> Table {
        vec![vec![None; self.panels()]; self.triggers()]
    }

    /// Every rule between two triggers: the after rules, and what the land rules say by the lags.
    pub fn order(&self) -> Table {
        let mut order = self.after.clone();
        for (row, land) in order.iter_mut().zip(self.land.iter().flatten()) {
            for (c, lags) in land.iter().zip(&self.lag) {
                let through = |a: &Option<i64>| c.zip(*a).map(|(c, a)| c + a);
                let rules = row.iter_mut().zip(lags);
                rules.for_each(|(rule, a)| *rule = (*rule).max(through(a)));
            }
        }
        order
    }
}

fn all_present(numbers: &[i64]) -> Vec<Option<i64>> {
    numbers.iter().copied().map(Some).collect()
}

fn written(key: &str, entries: &[Option<i64>]) -> String {
    let item = |entry: &Option<i64>| entry.map_or("-".to_string(), |v| v.to_string());
    let items: Vec<String> = entries.iter().map(item).collect();
    format!("{key}={}\n", items.join(","))
}

// ---------------------------------------------------------------- Good sheets

/// How a draft's entries are drawn.
#[derive(Clone, Copy)]
struct Manner {
    /// Entries lie within ± this.
    size: i64,
    /// Nearly all entries are at the limits, beside them or 0.
    extreme: bool,
    /// Percent of lags, floors and after entries that are absent.
    no_lag: usize,
    no_floor: usize,
    no_after: usize,
}

impl Manner {
    fn number(&self, random: &mut Random) -> i64 {
        if self.extreme && random.chance(80) {
            let sign = *random.pick(&[-1, 1]);
            return sign * random.pick(&[self.size, self.size, self.size - 1, 0]);
        }
        random.between(-self.size, self.size)
    }

    fn entry(&self, random: &mut Random, absent: usize) -> Option<i64> {
        (!random.chance(absent)).then(|| self.number(random))
    }

    fn row(&self, random: &mut Random, items: usize, absent: usize) -> Vec<Option<i64>> {
        (0..items).map(|_| self.entry(random, absent)).collect()
    }

    fn draft(&self, random: &mut Random, m: usize, n: usize) -> Draft {
        Draft {
            by_spread: false,
            lag: (0..m).map(|_| self.row(random, n, self.no_lag)).collect(),
            floor: self.row(random, m, self.no_floor),
            due: (0..n).map(|_| self.number(random)).collect(),
            after: (0..n).map(|_| self.row(random, n, self.no_after)).collect(),
            land: None,
            last: None,
        }
    }
}

/// A draft for the search: at most four panels and three triggers, entries within ±2 (±3 for fewer
/// triggers), so that the window stays small.
pub fn tiny(random: &mut Random) -> Draft {
    let (m, n) = (1 + random.below(4), *random.pick(&[1, 2, 2, 3, 3, 3, 3]));
    let largest = if n == 3 { 2 } else { 3 };
    let manner = Manner {
        size: random.between(1, largest),
        extreme: false,
        no_lag: *random.pick(&[0, 20, 40]),
        no_floor: *random.pick(&[0, 25]),
        no_after: *random.pick(&[100, 80, 60, 60]),
    };
    let mut draft = manner.draft(random, m, n);
    if random.chance(40) {
        let slack = random.between(0, 1);
        order_from_marks(random, &mut draft, 1, slack, 50);
    } else if random.chance(30) {
        circle(random, &mut draft, 1);
    }
    mend(random, &mut draft, manner.size);
    side_panel(random, &mut draft);
    land(random, &mut draft, manner.size);
    idle(random, &mut draft);
    rule(random, &mut draft, manner.size, 0);
    last(random, &mut draft, 3 * manner.size);
    draft
}

/// A draft of any size. Nearly all are good sheets; some are refused with 6, 7, 14 or 8.
pub fn any_size(random: &mut Random) -> Draft {
    let (m, n) = (1 + random.below(6), 1 + random.below(6));
    let size = *random.pick(&[1, 1, 2, 2, 3, 5, 20, 400, 100_000]);
    let manner = Manner {
        size,
        extreme: false,
        no_lag: *random.pick(&[0, 20, 40, 60, 80]),
        no_floor: *random.pick(&[0, 0, 20, 50]),
        no_after: *random.pick(&[100, 100, 95, 90]),
    };
    let mut draft = manner.draft(random, m, n);
    order(random, &mut draft, size);
    if random.chance(20) {
        let trigger = random.below(n);
        draft.lag.iter_mut().for_each(|row| row[trigger] = None);
    }
    if random.chance(97) {
        mend(random, &mut draft, size);
    }
    side_panel(random, &mut draft);
    land(random, &mut draft, (3 * size).min(100_000));
    idle(random, &mut draft);
    rule(random, &mut draft, size, 10);
    last(random, &mut draft, (3 * size).min(100_000));
    draft
}

/// A draft at the limits ±100,000.
pub fn at_limits(random: &mut Random) -> Draft {
    let (m, n) = (1 + random.below(6), 1 + random.below(6));
    let manner = Manner {
        size: 100_000,
        extreme: true,
        no_lag: *random.pick(&[0, 30, 60]),
        no_floor: *random.pick(&[0, 30]),
        no_after: *random.pick(&[100, 90, 80]),
    };
    let mut draft = manner.draft(random, m, n);
    let step = *random.pick(&[-100_000, 100_000]);
    match random.below(4) {
        0 => after_chain(&mut draft, step),
        1 => land_chain(&mut draft, step),
        2 => order_from_marks(random, &mut draft, 50_000, 0, 50),
        _ => {}
    }
    mend(random, &mut draft, 100_000);
    if draft.land.is_none() {
        land(random, &mut draft, 100_000);
    }
    if random.chance(20) {
        draft.land = Some((0..n).map(|_| manner.row(random, m, 80)).collect());
    }
    idle(random, &mut draft);
    rule(random, &mut draft, 100_000, 10);
    last(random, &mut draft, 100_000);
    if random.chance(20) {
        draft.last = Some((0..m).map(|_| manner.number(random)).collect());
    }
    draft
}

/// Each trigger a step after the one before: the longest paths reach the bounds of M*, d and r.
fn after_chain(draft: &mut Draft, step: i64) {
    let n = draft.triggers();
    draft.after = vec![vec![None; n]; n];
    (1..n).for_each(|i| draft.after[i][i - 1] = Some(step));
}

/// Each trigger waits for a panel that the one before alone reaches: such steps are twice as large.
fn land_chain(draft: &mut Draft, step: i64) {
    let n = draft.triggers();
    draft.after = vec![vec![None; n]; n];
    let mut land = draft.no_land_rules();
    // The last panel is left as it is, for its floor.
    for i in 1..n.min(draft.panels()) {
        draft.lag[i - 1].fill(None);
        draft.lag[i - 1][i - 1] = Some(step);
        land[i][i - 1] = Some(step);
    }
    draft.land = Some(land);
}

/// A draft whose floors nearly tie: lag, floor and due come from marks, so that many entries are
/// kept and many are tied for pruning; under rule 2 where all panels have the same height.
pub fn nearly_tied(random: &mut Random) -> Draft {
    let (m, n) = (1 + random.below(6), 1 + random.below(6));
    let noise = random.between(0, 2);
    let absent = *random.pick(&[0, 30, 50]);
    let tallest = *random.pick(&[0, 9]);
    let marks: Vec<i64> = (0..n).map(|_| random.between(-9, 9)).collect();
    let heights: Vec<i64> = (0..m).map(|_| random.between(-tallest, tallest)).collect();
    let mut draft = Draft {
        by_spread: false,
        lag: vec![vec![None; n]; m],
        floor: Vec::new(),
        due: marks.iter().map(|v| v + random.between(0, noise)).collect(),
        after: vec![vec![None; n]; n],
        land: None,
        last: None,
    };
    for i in 0..m {
        for j in 0..n {
            let lag = heights[i] - marks[j] + random.between(-noise, noise);
            draft.lag[i][j] = (!random.chance(absent)).then_some(lag);
        }
        let floor = heights[i] + random.between(-noise, noise);
        draft.floor.push((!random.chance(10)).then_some(floor));
    }
    order(random, &mut draft, 2);
    mend(random, &mut draft, 3);
    side_panel(random, &mut draft);
    land(random, &mut draft, 40);
    idle(random, &mut draft);
    rule(random, &mut draft, 3, 10);
    last(random, &mut draft, 40);
    draft
}

/// Some order on top of a draft: none more, one from marks, or one or two circles.
fn order(random: &mut Random, draft: &mut Draft, size: i64) {
    match random.below(6) {
        0 | 1 => {
            let slack = random.between(0, size.min(3));
            let percent = *random.pick(&[15, 40, 80]);
            order_from_marks(random, draft, (size / 2).max(1), slack, percent);
        }
        2 => circle(random, draft, size),
        3 => (0..2).for_each(|_| circle(random, draft, size)),
        _ => {}
    }
}

/// After entries that some marks v keep: b(i,j) at most v(i) − v(j). Without slack, every circle
/// sums to 0; the diagonal takes part.
fn order_from_marks(random: &mut Random, draft: &mut Draft, size: i64, slack: i64, percent: usize) {
    let n = draft.triggers();
    let marks: Vec<i64> = (0..n).map(|_| random.between(-size, size)).collect();
    for i in 0..n {
        for j in 0..n {
            let present = random.chance(percent);
            let entry = marks[i] - marks[j] - random.between(0, slack);
            draft.after[i][j] = present.then_some(entry);
        }
    }
}

/// A circle of after rules through some triggers, often all, that sums to −1, 0 or 1.
fn circle(random: &mut Random, draft: &mut Draft, size: i64) {
    let n = draft.triggers();
    let mut order: Vec<usize> = (0..n).collect();
    (1..n).for_each(|k| order.swap(k, random.below(k + 1)));
    order.truncate(if random.chance(50) {
        n
    } else {
        1 + random.below(n)
    });
    let step = (size / 6).clamp(1, 9);
    let mut left = *random.pick(&[-1, 0, 0, 0, 1]);
    for k in 0..order.len() {
        let last = k + 1 == order.len();
        let weight = if last {
            left
        } else {
            random.between(-step, step)
        };
        left -= weight;
        draft.after[order[(k + 1) % order.len()]][order[k]] = Some(weight);
    }
}

/// Land lines within ±`size` on top of a draft: none, such as ask nothing, such as are drawn without a
/// look at the order, or such as can be kept with it.
fn land(random: &mut Random, draft: &mut Draft, size: i64) {
    draft.land = match random.below(9) {
        0..=3 => None,
        4 => Some(draft.no_land_rules()),
        5 => Some(land_anyhow(random, draft, size)),
        _ => Some(land_from_timing(random, draft, size)),
    };
}

fn land_anyhow(random: &mut Random, draft: &Draft, size: i64) -> Table {
    let percent = *random.pick(&[5, 15, 40]);
    let mut entry = || random.chance(percent).then(|| random.between(-size, size));
    let mut row = || (0..draft.panels()).map(|_| entry()).collect();
    (0..draft.triggers()).map(|_| row()).collect()
}

/// Land entries that a timing keeps which keeps the after rules, where any does: c(i,j) is at most
/// x(i) − y(j). Without slack a rule that only just holds makes circles that sum to 0. Sometimes an
/// entry asks for 1 too much.
fn land_from_timing(random: &mut Random, draft: &Draft, size: i64) -> Table {
    let x = timing_in_order(random, draft, (size / 4).max(1));
    let percent = *random.pick(&[15, 40, 80]);
    let slack = random.between(0, size.min(3));
    let excess = i64::from(random.chance(10));
    let mut land = draft.no_land_rules();
    for (row, x_i) in land.iter_mut().zip(&x) {
        for (entry, lags) in row.iter_mut().zip(&draft.lag) {
            if let (true, Some(y)) = (random.chance(percent), largest_sum(lags, &x)) {
                let most = x_i - y - random.between(-excess, slack);
                *entry = (most >= -size).then_some(most.min(size));
            }
        }
    }
    land
}

/// Times within ±`size`, then raised by the after rules as long as it takes where they can be kept.
fn timing_in_order(random: &mut Random, draft: &Draft, size: i64) -> Vec<i64> {
    let n = draft.triggers();
    let mut x: Vec<i64> = (0..n).map(|_| random.between(-size, size)).collect();
    for _ in 0..n {
        for i in 0..n {
            let least = largest_sum(&draft.after[i], &x);
            x[i] = x[i].max(least.unwrap_or(x[i]));
        }
    }
    x
}

/// The largest of some entries, each with its time added.
fn largest_sum(entries: &[Option<i64>], x: &[i64]) -> Option<i64> {
    let sums = entries.iter().zip(x).map(|(a, x)| a.map(|a| a + x));
    sums.fold(None, Option::max)
}

/// Gives each panel a lag and the sheet a floor, where they are missing.
fn mend(random: &mut Random, draft: &mut Draft, size: i64) {
    let n = draft.triggers();
    for row in &mut draft.lag {
        if row.iter().all(Option::is_none) {
            row[random.below(n)] = Some(random.between(-size, size));
        }
    }
    if draft.floor.iter().all(Option::is_none) {
        let panel = random.below(draft.floor.len());
        draft.floor[panel] = Some(random.between(-size, size));
    }
}

/// Sometimes a panel without a floor that a single trigger reaches: few lines have a landing there.
fn side_panel(random: &mut Random, draft: &mut Draft) {
    let (panel, trigger) = (random.below(draft.panels()), random.below(draft.triggers()));
    let mut floors = draft.floor.clone();
    floors[panel] = None;
    if random.chance(70) || floors.iter().all(Option::is_none) {
        return;
    }
    draft.floor = floors;
    let lag = draft.lag[panel][trigger].unwrap_or(0);
    draft.lag[panel].fill(None);
    draft.lag[panel][trigger] = Some(lag);
}

/// Sometimes triggers with nothing but a due mark, which are spare, and often one among them that a
/// single entry keeps in use.
fn idle(random: &mut Random, draft: &mut Draft) {
    let n = draft.triggers();
    if n == 1 || random.chance(70) {
        return;
    }
    let any = random.below(n);
    let one = *random.pick(&[0, n - 1, any]);
    let busy = (one + 1 + random.below(n - 1)) % n;
    let manner = random.below(5);
    let mut among = |j: usize| match manner {
        0 | 1 => j == one,
        2 | 3 => random.chance(60) || j == one,
        _ => true,
    };
    for j in (0..n).filter(|&j| j != busy) {
        if among(j) {
            take_all(draft, j, busy);
        }
    }
    if random.chance(35) {
        give_one(random, draft, one, busy);
    }
}

/// Takes a trigger's lags and rules; a panel that it alone reaches is now reached by the busy one.
fn take_all(draft: &mut Draft, trigger: usize, busy: usize) {
    for row in &mut draft.lag {
        let lag = row[trigger].take();
        if row.iter().all(Option::is_none) {
            row[busy] = lag;
        }
    }
    draft.after[trigger].fill(None);
    draft.after.iter_mut().for_each(|row| row[trigger] = None);
    let land = draft.land.iter_mut();
    land.for_each(|land| land[trigger].fill(None));
}

/// One entry for an idle trigger: a lag, or a rule on the diagonal, in its row, in its column or in its
/// land line. Nothing else is about the trigger, so only a rule for itself could not be kept.
fn give_one(random: &mut Random, draft: &mut Draft, trigger: usize, other: usize) {
    let panel = random.below(draft.panels());
    let number = random.between(-2, 2);
    let no_rules = draft.no_land_rules();
    match random.below(9) {
        0 => draft.lag[panel][trigger] = Some(number),
        1 | 2 => draft.after[trigger][trigger] = Some(number.min(0)),
        3 | 4 => draft.after[trigger][other] = Some(number),
        5 | 6 => draft.after[other][trigger] = Some(number),
        _ => draft.land.get_or_insert(no_rules)[trigger][panel] = Some(number),
    }
}

/// In a third of the sheets rule 2, in a few more marks that say the same; for so many percent of them some
/// trigger may be left without a lag that it needs, elsewhere each has one.
fn rule(random: &mut Random, draft: &mut Draft, size: i64, lagless: usize) {
    let manner = random.below(12);
    if manner > 4 {
        return;
    }
    if !random.chance(lagless) {
        give_lags(random, draft, size);
    }
    if manner == 0 {
        draft.say_by_marks();
    } else {
        draft.by_spread = true;
    }
}

/// A lag for each trigger that rule 2 would not take.
fn give_lags(random: &mut Random, draft: &mut Draft, size: i64) {
    for j in 0..draft.triggers() {
        if draft.is_lagless(j) {
            let panel = random.below(draft.panels());
            draft.lag[panel][j] = Some(random.between(-size, size));
        }
    }
}

/// In four sheets of nine a last line: one moment for all panels, moments within ±`size`, or such as the
/// landings of some times just meet or miss. A panel without a floor may have an early one: it decides for
/// the lines that reach it, and not for those that do not.
fn last(random: &mut Random, draft: &mut Draft, size: i64) {
    let m = draft.panels();
    let mut last = match random.below(9) {
        0..=4 => return draft.last = None,
        5 => vec![random.between(-size, size); m],
        6 => (0..m).map(|_| random.between(-size, size)).collect(),
        _ => last_from_landings(random, draft, size),
    };
    for (moment, floor) in last.iter_mut().zip(&draft.floor) {
        if floor.is_none() && random.chance(40) {
            *moment = (*moment - size).max(-100_000);
        }
    }
    draft.last = Some(last);
}

/// Moments about the landings of a timing, so that many panels come near to deciding; often some are so late
/// that those left decide.
fn last_from_landings(random: &mut Random, draft: &Draft, size: i64) -> Vec<i64> {
    let x = timing_in_order(random, draft, (size / 4).max(1));
    let about = random.between(0, size.min(3));
    let late = *random.pick(&[0, 0, 30, 60]);
    let moment = |lags: &Vec<Option<i64>>| {
        let lands = largest_sum(lags, &x).unwrap_or(0);
        let room = if random.chance(late) { size } else { 0 };
        let moment = lands + room + random.between(-about, about);
        moment.clamp(-100_000, 100_000)
    };
    draft.lag.iter().map(moment).collect()
}

// ------------------------------------------------------- Related sheets, for demand 3

/// A draft related to another of the same triggers, and whether the same timings are known to be
/// tightest on both; where it is not known they often are. Last moments play no part in it.
pub fn related(random: &mut Random, draft: &Draft) -> (Draft, bool) {
    let mut other = draft.clone();
    let known = random.chance(40);
    if known {
        (0..1 + random.below(2)).for_each(|_| keep_timings(random, &mut other));
    } else {
        (0..1 + random.below(3)).for_each(|_| change_entry(random, &mut other));
        if random.chance(20) {
            other.by_spread = !other.by_spread;
        }
        mend(random, &mut other, 1);
        if random.chance(30) {
            idle(random, &mut other);
        }
        if other.by_spread {
            give_lags(random, &mut other, 1);
        }
    }
    if random.chance(20) {
        last(random, &mut other, 9);
    }
    (other, known)
}

fn moved(entry: Option<i64>, by: i64) -> Option<i64> {
    entry.map(|v| v + by)
}

/// A change that keeps the tightest timings.
fn keep_timings(random: &mut Random, draft: &mut Draft) {
    let panel = random.below(draft.panels());
    let by = *random.pick(&[-1, 1]);
    let move_floors = |draft: &mut Draft| draft.floor.iter_mut().for_each(|p| *p = moved(*p, by));
    let move_dues = |draft: &mut Draft| draft.due.iter_mut().for_each(|q| *q += by);
    match random.below(19) {
        0 => move_floors(draft),
        1 => move_dues(draft),
        2 => {
            move_floors(draft);
            move_dues(draft);
        }
        // By the spread of landings, all panels together.
        3 if draft.by_spread => (0..draft.panels()).for_each(|i| move_panel(draft, i, by)),
        3 => move_panel(draft, panel, by),
        4 => {
            let other = random.below(draft.panels());
            exchange_panels(draft, panel, other);
        }
        // A panel twice, the second time perhaps lower.
        5 if draft.panels() < 6 => {
            let lower = random.between(0, 1);
            copy_panel(random, draft, panel, moved(draft.floor[panel], -lower));
        }
        // A panel that may change at any time.
        6 if draft.panels() < 6 => copy_panel(random, draft, panel, None),
        7 => add_weaker_rule(random, draft),
        8 => add_rules_that_follow(draft),
        9 | 10 => add_weaker_land_rule(random, draft),
        11 => land_written_out(draft),
        12 => draft.land = land_said_otherwise(draft),
        13 => change_moment(random, draft, by),
        14 => draft.last = last_or_none(random, draft),
        15 | 16 => rule_said_otherwise(draft),
        _ => change_spare_dues(random, draft),
    }
}

/// Marks in the place of rule 2; rule 2 in the place of marks that say the same.
fn rule_said_otherwise(draft: &mut Draft) {
    if draft.by_spread {
        draft.say_by_marks();
    } else {
        draft.by_spread = draft.says_spread();
    }
}

/// What a spare trigger's due mark is does not matter.
fn change_spare_dues(random: &mut Random, draft: &mut Draft) {
    for (j, spare) in draft.spares().into_iter().enumerate() {
        if spare {
            draft.due[j] = *random.pick(&[-99_999, -9, 0, 9, 99_999]);
        }
    }
}

/// One last moment a little earlier or later, where there are any.
fn change_moment(random: &mut Random, draft: &mut Draft, by: i64) {
    let panel = random.below(draft.panels());
    draft.last.iter_mut().for_each(|last| last[panel] += by);
}

/// A last line in the place of none; none in the place of one.
fn last_or_none(random: &mut Random, draft: &Draft) -> Option<Vec<i64>> {
    let none = draft.last.is_none();
    none.then(|| last_from_landings(random, draft, 9))
}

/// A panel that changes later, with its floor and its last moment; who waits for it waits so much less.
fn move_panel(draft: &mut Draft, panel: usize, by: i64) {
    draft.lag[panel].iter_mut().for_each(|a| *a = moved(*a, by));
    draft.floor[panel] = moved(draft.floor[panel], by);
    draft.last.iter_mut().for_each(|last| last[panel] += by);
    for row in draft.land.iter_mut().flatten() {
        row[panel] = moved(row[panel], -by);
    }
}

fn exchange_panels(draft: &mut Draft, one: usize, other: usize) {
    draft.lag.swap(one, other);
    draft.floor.swap(one, other);
    draft.last.iter_mut().for_each(|last| last.swap(one, other));
    for row in draft.land.iter_mut().flatten() {
        row.swap(one, other);
    }
}

/// A panel once more, with a floor that asks no more and another last moment; who waits for it may wait for
/// the copy as well.
fn copy_panel(random: &mut Random, draft: &mut Draft, panel: usize, floor: Option<i64>) {
    draft.lag.push(draft.lag[panel].clone());
    draft.floor.push(floor);
    let last = draft.last.iter_mut();
    last.for_each(|last| last.push(last[panel] + random.between(-1, 1)));
    for row in draft.land.iter_mut().flatten() {
        let rule = row[panel].filter(|_| random.chance(50));
        row.push(moved(rule, -random.between(0, 1)));
    }
}

/// The rule that follows from two others, where there are such.
fn following(order: &Table, i: usize, j: usize) -> Option<i64> {
    let through = |k: usize| order[i][k].zip(order[k][j]).map(|(a, b)| a + b);
    (0..order.len()).map(through).fold(None, Option::max)
}

/// Every rule that follows from two others.
fn add_rules_that_follow(draft: &mut Draft) {
    let order = draft.order();
    for (i, row) in draft.after.iter_mut().enumerate() {
        for (j, entry) in row.iter_mut().enumerate() {
            *entry = (*entry).max(following(&order, i, j));
        }
    }
}

/// One rule that asks no more than others do.
fn add_weaker_rule(random: &mut Random, draft: &mut Draft) {
    let (i, j) = (
        random.below(draft.triggers()),
        random.below(draft.triggers()),
    );
    let follows = following(&draft.order(), i, j);
    draft.after[i][j] = draft.after[i][j].max(moved(follows, -random.between(0, 2)));
}

/// One land rule that asks no more than other rules do: x(i) is late enough after each trigger that
/// reaches the panel, and after itself at once.
fn add_weaker_land_rule(random: &mut Random, draft: &mut Draft) {
    let (i, panel) = (random.below(draft.triggers()), random.below(draft.panels()));
    let mut rules = draft.order()[i].clone();
    rules[i] = rules[i].max(Some(0));
    let reached = rules.iter().zip(&draft.lag[panel]);
    let follows = reached.filter_map(|(rule, lag)| lag.map(|a| moved(*rule, -a)));
    let follows = moved(follows.min().flatten(), -random.between(0, 1));
    let no_rules = draft.no_land_rules();
    let entry = &mut draft.land.get_or_insert(no_rules)[i][panel];
    *entry = (*entry).max(follows);
}

/// The land rules as after rules, by the lags, and no land lines.
fn land_written_out(draft: &mut Draft) {
    draft.after = draft.order();
    draft.land = None;
}

/// Land lines that ask nothing, in the place of none; none in the place of such.
fn land_said_otherwise(draft: &Draft) -> Option<Table> {
    let no_rules = draft.no_land_rules();
    match &draft.land {
        None => Some(no_rules),
        Some(land) if *land == no_rules => None,
        Some(land) => Some(land.clone()),
    }
}

/// One entry changed by 1, come or gone.
fn change_entry(random: &mut Random, draft: &mut Draft) {
    let (i, j) = (random.below(draft.panels()), random.below(draft.triggers()));
    let k = random.below(draft.triggers());
    let by = *random.pick(&[-1, 1]);
    let no_rules = draft.no_land_rules();
    let entry = match random.below(9) {
        0 | 1 => &mut draft.lag[i][j],
        2 => &mut draft.floor[i],
        3 | 4 => &mut draft.after[j][k],
        5 | 6 => &mut draft.land.get_or_insert(no_rules)[j][i],
        _ => return draft.due[j] += by,
    };
    *entry = match *entry {
        None => Some(by),
        Some(_) if random.chance(20) => None,
        present => moved(present, by),
    };
}

// ---------------------------------------------------------------- Damaged sheets

/// Numerals that a reader gets wrong most easily, good ones among them.
const NUMERALS: [&str; 24] = [
    "-",
    "0",
    "-0",
    "00",
    "05",
    "-05",
    "+5",
    "--",
    "--5",
    "",
    "5-",
    " 5",
    "5\r",
    "1e5",
    "0x1",
    "100000",
    "-100000",
    "100001",
    "-100001",
    "4294967301",
    "-4294967296",
    "18446744073709551621",
    "999999999999999999999999999999",
    "-999999999999999999999999999999",
];

/// What a size may be changed to.
const SIZES: [&str; 16] = [
    "0",
    "1",
    "2",
    "3",
    "4",
    "5",
    "6",
    "7",
    "10",
    "-",
    "-1",
    "100001",
    "256",
    "4294967297",
    "18446744073709551617",
    "06",
];

/// A sheet with one or two faults, as far as each change is a fault.
pub fn damaged(random: &mut Random, draft: &Draft) -> Vec<u8> {
    let mut draft = draft.clone();
    if random.chance(10) {
        without_lag_or_floor(random, &mut draft);
        if random.chance(30) {
            return draft.write();
        }
    }
    // Such lines are a fault by themselves, which any other would hide.
    if random.chance(15) {
        draft.land = Some(misshapen_land(random, &draft));
        return draft.write();
    }
    if random.chance(25) {
        return with_faulty_last(random, draft);
    }
    if random.chance(40) {
        return with_faulty_rule(random, draft);
    }
    let spare = (0..draft.triggers()).find(|&j| draft.is_spare(j));
    if let (Some(spare), false, true) = (spare, draft.by_spread, random.chance(20)) {
        return with_faulty_due(random, &draft, spare);
    }
    let mut bytes = draft.write();
    for _ in 0..1 + random.below(2) {
        bytes = match random.below(8) {
            0 | 1 => damage_byte(random, bytes),
            2 => damage_line(random, bytes),
            3..=5 => damage_item(random, bytes),
            6 => damage_size_or_due(random, bytes),
            _ => damage_end(random, bytes),
        };
    }
    bytes
}

fn without_lag_or_floor(random: &mut Random, draft: &mut Draft) {
    let which = random.below(3);
    if which != 0 {
        let panel = random.below(draft.panels());
        draft.lag[panel].fill(None);
    }
    if which != 1 {
        draft.floor.fill(None);
    }
}

/// Land lines that ask nothing, too many or too few of them or of their items, or with panels and
/// triggers taken for one another.
fn misshapen_land(random: &mut Random, draft: &Draft) -> Table {
    let (m, n) = (draft.panels(), draft.triggers());
    let few = random.below(n);
    let shapes = [(few, m), (n + 1, m), (n, m - 1), (n, m + 1), (m, n)];
    let (rows, items) = *random.pick(&shapes);
    vec![vec![None; items]; rows]
}

/// A last line in a wrong place, before another one or before the land lines; or one with a wrong number of
/// items, or with moments that are absent, out of range or no numbers.
fn with_faulty_last(random: &mut Random, mut draft: Draft) -> Vec<u8> {
    let (m, n) = (draft.panels(), draft.triggers());
    let last = |items: &[&str]| format!("last={}\n", items.join(","));
    let right = last(&vec!["0"; m]);
    let no_rules = draft.no_land_rules();
    let lines = match random.below(6) {
        0 => right.repeat(2),
        1 => {
            let land = draft.land.take().unwrap_or(no_rules);
            let land = land.iter().map(|row| written("land", row));
            right + &land.collect::<String>()
        }
        2 => last(&vec!["0"; *random.pick(&[m - 1, m + 1, n])]),
        _ => last(&faulty_moments(random, m)),
    };
    draft.last = None;
    [draft.write(), lines.into_bytes()].concat()
}

fn faulty_moments(random: &mut Random, m: usize) -> Vec<&'static str> {
    let mut items = vec!["0"; m];
    for _ in 0..1 + random.below(3) {
        let faults = ["-", "-", "100001", "-100001", "-0", "x"];
        items[random.below(m)] = *random.pick(&faults);
    }
    items
}

/// Rule lines that a reader gets wrong, most easily the first four: none of them is good at the front of a sheet.
const RULES: [&str; 26] = [
    "rule=1\n",
    "rule=2",
    "rule=02\n",
    "rule=2,2\n",
    "rule=3\n",
    "rule=0\n",
    "rule=-\n",
    "rule=-2\n",
    "rule=+2\n",
    "rule=22\n",
    "rule=2.\n",
    "rule=100001\n",
    "rule=4294967298\n",
    "rule=\n",
    "rule=2,\n",
    "rule= 2\n",
    "rule=2 \n",
    "rule=2\r\n",
    "rule=",
    "rule",
    "Rule=2\n",
    "rule =2\n",
    " rule=2\n",
    "\nrule=2\n",
    "rule=2\n\n",
    "rule=2\nrule=2\n",
];

/// A rule line that is wrong, perhaps in a sheet near the limit of length, one line more or in another place, marks
/// beside rule 2 or none without it, or a trigger that rule 2 does not take.
fn with_faulty_rule(random: &mut Random, mut draft: Draft) -> Vec<u8> {
    draft.by_spread = random.chance(60);
    match random.below(8) {
        0 | 1 => with_wrong_rule(random, &draft),
        2 => {
            let mut sheet = with_wrong_rule(random, &draft);
            sheet.resize(2046 + random.below(5), b'\n');
            sheet
        }
        3 | 4 => {
            let mut lines = lines_of(&draft.write());
            let moved = random.chance(50);
            lines.retain(|line| !(moved && line == RULE.as_bytes()));
            let any = random.below(lines.len() + 1);
            lines.insert(*random.pick(&[0, any]), RULE.into());
            lines.concat()
        }
        5 => with_some_marks(random, draft),
        _ => {
            draft.by_spread = true;
            take_lags(random, &mut draft);
            draft.write()
        }
    }
}

fn with_wrong_rule(random: &mut Random, draft: &Draft) -> Vec<u8> {
    let sheet = draft.write();
    let lines = sheet.strip_prefix(RULE.as_bytes()).unwrap_or(&sheet);
    let rules = *random.pick(&[&RULES[..4], &RULES]);
    [random.pick(rules).as_bytes(), lines].concat()
}

/// Under rule 2 with some of its marks, or without the rule and without some of them.
fn with_some_marks(random: &mut Random, mut draft: Draft) -> Vec<u8> {
    let ways: [(&str, &[&str]); 6] = [
        (RULE, &[]),
        (RULE, &["floor="]),
        (RULE, &["due="]),
        ("", &["floor="]),
        ("", &["due="]),
        ("", &["floor=", "due="]),
    ];
    let (rule, left_out) = random.pick(&ways);
    draft.by_spread = false;
    let mut lines = lines_of(&draft.write());
    lines.retain(|line| !left_out.iter().any(|key| line.starts_with(key.as_bytes())));
    [rule.as_bytes(), &lines.concat()].concat()
}

/// Takes all lags of a trigger, which often has a rule, and sometimes those of a panel.
fn take_lags(random: &mut Random, draft: &mut Draft) {
    let n = draft.triggers();
    let trigger = random.below(n);
    let busy = (trigger + 1) % n;
    take_all(draft, trigger, busy);
    if random.chance(80) {
        give_one(random, draft, trigger, busy);
    }
    if random.chance(20) {
        let panel = random.below(draft.panels());
        draft.lag[panel].fill(None);
    }
}

/// A byte changed, removed, inserted or duplicated.
fn damage_byte(random: &mut Random, mut bytes: Vec<u8>) -> Vec<u8> {
    if bytes.is_empty() {
        return bytes;
    }
    let at = random.below(bytes.len());
    let byte = some_byte(random);
    match random.below(5) {
        0 => bytes[at] = byte,
        1 => bytes[at] ^= 1 << random.below(8),
        2 => drop(bytes.remove(at)),
        3 => bytes.insert(at, byte),
        _ => bytes.insert(at, bytes[at]),
    }
    bytes
}

fn some_byte(random: &mut Random) -> u8 {
    if random.chance(20) {
        return random.next() as u8;
    }
    *random.pick(b"0123456789--,,==\n\n\r +.adflnprt\0")
}

/// The lines with their ends.
fn lines_of(bytes: &[u8]) -> Vec<Vec<u8>> {
    bytes
        .split_inclusive(|&b| b == b'\n')
        .map(<[u8]>::to_vec)
        .collect()
}

/// A line lost or doubled, two lines exchanged, a line end changed.
fn damage_line(random: &mut Random, bytes: Vec<u8>) -> Vec<u8> {
    let mut lines = lines_of(&bytes);
    if lines.is_empty() {
        return bytes;
    }
    let (at, other) = (random.below(lines.len()), random.below(lines.len()));
    match random.below(5) {
        0 => drop(lines.remove(at)),
        1 => lines.insert(at, lines[at].clone()),
        2 => lines.swap(at, other),
        3 => drop(lines[at].pop()),
        _ => {
            lines[at].pop();
            lines[at].extend(*random.pick(&[b"\r\n", b"\n\n", b" \n", b",\n"]));
        }
    }
    lines.concat()
}

/// An item lost, doubled or replaced; sometimes two of one line.
fn damage_item(random: &mut Random, bytes: Vec<u8>) -> Vec<u8> {
    let mut lines = lines_of(&bytes);
    if lines.is_empty() {
        return bytes;
    }
    let at = random.below(lines.len());
    let times = 1 + random.below(2);
    for _ in 0..times {
        lines[at] = change_item(random, &lines[at]);
    }
    lines.concat()
}

/// One line with one item changed; a line that is not `key=items` stays.
fn change_item(random: &mut Random, line: &[u8]) -> Vec<u8> {
    let text = String::from_utf8_lossy(line);
    let Some((key, rest)) = text.trim_end_matches('\n').split_once('=') else {
        return line.to_vec();
    };
    let mut items: Vec<String> = rest.split(',').map(str::to_string).collect();
    let at = random.below(items.len());
    match random.below(8) {
        0 => drop(items.remove(at)),
        1 => items.insert(at, items[at].clone()),
        2 => {
            items[at] = if random.chance(50) {
                "9".repeat(1 + random.below(500))
            } else {
                "-".into()
            }
        }
        _ => items[at] = random.pick(&NUMERALS).to_string(),
    }
    format!("{key}={}\n", items.join(",")).into_bytes()
}

/// Another size, or an absent or wrong due mark, where the sheet has the line.
fn damage_size_or_due(random: &mut Random, bytes: Vec<u8>) -> Vec<u8> {
    let mut lines = lines_of(&bytes);
    let key = *random.pick(&["panels", "triggers", "due"]);
    let is_it = |line: &Vec<u8>| line.starts_with(format!("{key}=").as_bytes());
    if let Some(at) = lines.iter().position(is_it) {
        lines[at] = match key {
            "due" => due_with_absent(random, &lines[at]),
            _ => size_line(random, key),
        };
    }
    lines.concat()
}

fn size_line(random: &mut Random, key: &str) -> Vec<u8> {
    format!("{key}={}\n", random.pick(&SIZES)).into_bytes()
}

/// A due line with one mark absent, sometimes with another item changed.
fn due_with_absent(random: &mut Random, line: &[u8]) -> Vec<u8> {
    let text = String::from_utf8_lossy(line)
        .trim_end_matches('\n')
        .replace("due=", "");
    let mut items: Vec<String> = text.split(',').map(str::to_string).collect();
    if random.chance(30) {
        let other = random.below(items.len());
        items[other] = random.pick(&NUMERALS).to_string();
    }
    let at = random.below(items.len());
    items[at] = "-".to_string();
    format!("due={}\n", items.join(",")).into_bytes()
}

/// A due mark that nothing depends on is still read.
fn with_faulty_due(random: &mut Random, draft: &Draft, spare: usize) -> Vec<u8> {
    let mut due: Vec<String> = draft.due.iter().map(i64::to_string).collect();
    let right = format!("due={}\n", due.join(","));
    due[spare] = random.pick(&["-", "-", "100001", "-0"]).to_string();
    let faulty = format!("due={}\n", due.join(","));
    let text = String::from_utf8_lossy(&draft.write()).replace(&right, &faulty);
    text.into_bytes()
}

/// What is put behind a sheet. To one of a single panel and trigger, such land lines are no fault, and to one
/// of a single panel such a last line.
const LEFT_OVER: [&[u8]; 14] = [
    b"\n",
    b"x",
    b"\0",
    b"after=-\n",
    b"panels=1\n",
    b"rule=2\n",
    b"land=-\n",
    b"land=",
    b"land",
    b"Land=-\n",
    b"last=0\n",
    b"last=",
    b"last",
    b"Last=0\n",
];

/// Cut short, bytes left over, or near the limit of 2,048 bytes.
fn damage_end(random: &mut Random, mut bytes: Vec<u8>) -> Vec<u8> {
    match random.below(5) {
        0 => bytes.truncate(random.below(bytes.len() + 1)),
        1 => bytes.extend(*random.pick(&LEFT_OVER)),
        2 => bytes.resize(2046 + random.below(5), some_byte(random)),
        3 => stretch(random, &mut bytes),
        _ => bytes.resize(2049 + random.below(3000), some_byte(random)),
    }
    bytes
}

/// Puts digits behind the first digit that stands after a random place, up to about 2,048 bytes: a
/// good numeral of great length.
fn stretch(random: &mut Random, bytes: &mut Vec<u8>) {
    let length = 2046 + random.below(5);
    let start = random.below(bytes.len() + 1);
    let digit = bytes[start..]
        .iter()
        .position(|b| (b'1'..=b'9').contains(b));
    if let (Some(digit), true) = (digit, bytes.len() < length) {
        let at = start + digit + 1;
        let more = vec![some_digit(random); length - bytes.len()];
        bytes.splice(at..at, more);
    }
}

fn some_digit(random: &mut Random) -> u8 {
    *random.pick(b"0123456789")
}

/// Bytes that are no sheet, or begin like one.
pub fn raw(random: &mut Random) -> Vec<u8> {
    let length = *random.pick(&[0, 1, 8, 30, 100, 800, 2048, 2049, 3000]);
    let length = if random.chance(70) {
        random.below(length + 1)
    } else {
        length
    };
    let begins: [&[u8]; 6] = [
        b"",
        b"rule=",
        b"rule=2\n",
        b"panels=1\n",
        b"panels=1\ntriggers=1\n",
        b"panels=1\ntriggers=1\nlag=",
    ];
    let mut bytes = random.pick(&begins).to_vec();
    let any = random.chance(50);
    while bytes.len() < length {
        bytes.push(if any {
            random.next() as u8
        } else {
            some_byte(random)
        });
    }
    bytes
}
