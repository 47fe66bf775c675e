//! Document 01, word for word, in plain Rust: from a sheet's bytes to the answers; with document 02's
//! No. 2, "Triggers that wait for a landing", No. 4, "Spare triggers", No. 5, "Landings before the
//! downbeat", and No. 7, "The new rule of the houses".
//! Clarity before speed; it shares no code with the planner it is compared with.

use std::collections::BTreeSet;

/// "Tables fit a square table of six by six."
pub const SIZE: usize = 6;
/// "decimal whole numbers from −100,000 to 100,000"
pub const LIMIT: i64 = 100_000;
/// "1: over 2,048 bytes"
pub const LONGEST_SHEET: usize = 2_048;
/// "11: one beyond ±1,000,000,000"
pub const LONGEST_TIME: i64 = 1_000_000_000;
/// "The program lends space for 2,000 lines."
pub const PROGRAM_LINES: usize = 2_000;
/// "In the lent space these are seven signed 32-bit words"
pub const LINE_WORDS: usize = 7;
/// No. 5: "In the lent space a line of such a sheet takes eight words, its cap the eighth."
pub const CAPPED_WORDS: usize = 8;

/// A number or absent. `None` is absent: `Option`'s own order puts it below every number.
pub type Entry = Option<i64>;
pub type Table = Vec<Vec<Entry>>;
/// A line's six components, "the unused ones absent".
pub type Line = [Entry; SIZE];
/// The kept table; what a sheet does not use is not kept.
pub type Kept = [[bool; SIZE]; SIZE];
/// The number of a refusal.
pub type Refusal = u32;
/// What the kept table may refuse, in that order: reading's refusals, then 8.
pub const REFUSALS: [Refusal; 9] = [1, 2, 3, 4, 5, 6, 7, 14, 8];

// ---------------------------------------------------------------- The sheet

/// What a good sheet says.
#[derive(Clone)]
pub struct Sheet {
    /// Whether it begins with `rule=2`, so that a cue is measured by the spread of landings.
    pub by_spread: bool,
    pub panels: usize,
    pub triggers: usize,
    pub lag: Table,
    /// The marks that its lines give, or that count under rule 2.
    pub floor: Vec<Entry>,
    pub due: Vec<Entry>,
    pub after: Table,
    pub land: Table,
    /// The last moments, each of them present, where the sheet has a last line.
    pub last: Option<Vec<Entry>>,
}

impl Sheet {
    /// How many words a line takes in the lent space.
    pub fn line_words(&self) -> usize {
        if self.last.is_some() {
            CAPPED_WORDS
        } else {
            LINE_WORDS
        }
    }

    pub fn has_land_rules(&self) -> bool {
        !self.land.iter().all(|row| all_absent(row))
    }

    /// No. 4: "A trigger is now spare if it has no lag to any panel, no present after entry in its row or
    /// column, and no present land entry in its row."
    pub fn is_spare(&self, j: usize) -> bool {
        let no_row = |table: &Table| all_absent(&table[j]);
        let no_column = self.after.iter().all(|row| row[j].is_none());
        self.is_lagless(j) && no_row(&self.after) && no_column && no_row(&self.land)
    }

    /// Whether a trigger has no lag to any panel.
    fn is_lagless(&self, j: usize) -> bool {
        self.lag.iter().all(|row| row[j].is_none())
    }

    /// The triggers that are not spare.
    pub fn in_use(&self) -> impl Iterator<Item = usize> {
        (0..self.triggers).filter(|&j| !self.is_spare(j))
    }

    /// The spare triggers in a byte, bit 0 for trigger 1.
    pub fn spares(&self) -> u8 {
        let spares = (0..self.triggers).filter(|&j| self.is_spare(j));
        spares.map(|j| 1 << j).sum()
    }
}

/// "Reading": refusals 1 to 7 and 14.
pub fn read(bytes: &[u8]) -> Result<Sheet, Refusal> {
    if bytes.len() > LONGEST_SHEET {
        return Err(1);
    }
    // "Lines in order: panels, triggers, m lines lag, floor, due, n lines after."
    let mut rest = bytes;
    let by_spread = read_rule(&mut rest)?;
    let panels = read_size(&mut rest, b"panels=")?;
    let triggers = read_size(&mut rest, b"triggers=")?;
    let lag = read_rows(&mut rest, b"lag=", panels, triggers)?;
    let (floor, due) = if by_spread {
        marks_of_lags(&lag)
    } else {
        let floor = read_entries(&mut rest, b"floor=", panels)?;
        (floor, read_present(&mut rest, b"due=", triggers)?)
    };
    let after = read_rows(&mut rest, b"after=", triggers, triggers)?;
    let land = read_land(&mut rest, triggers, panels)?;
    let last = read_last(&mut rest, panels)?;
    let sheet = Sheet {
        by_spread,
        panels,
        triggers,
        lag,
        floor,
        due,
        after,
        land,
        last,
    };
    refused_after_lines(rest, &sheet).map_or(Ok(sheet), Err)
}

/// "After the lines: bytes left over are 2; then 6: a panel with no lag; then 7: no floor at all." No. 7: "It
/// refuses a trigger that is not spare and has no lag, under rule 2, as 14, after 7."
fn refused_after_lines(rest: &[u8], sheet: &Sheet) -> Option<Refusal> {
    if !rest.is_empty() {
        Some(2)
    } else if sheet.lag.iter().any(|row| all_absent(row)) {
        Some(6)
    } else if all_absent(&sheet.floor) {
        Some(7)
    } else if sheet.by_spread && sheet.in_use().any(|j| sheet.is_lagless(j)) {
        Some(14)
    } else {
        None
    }
}

fn all_absent(entries: &[Entry]) -> bool {
    entries.iter().all(Option::is_none)
}

/// No. 7: "A sheet may begin with `rule=2`; without it the old rule holds, and any other value there is refused
/// as 2." Whether it does.
fn read_rule(rest: &mut &[u8]) -> Result<bool, Refusal> {
    if !rest.starts_with(b"rule=") {
        return Ok(false);
    }
    *rest = rest.strip_prefix(b"rule=2\n").ok_or(2u32)?;
    Ok(true)
}

/// No. 7: "every floor counts as 0 and due j as minus the largest lag of trigger j". A spare trigger has no lag,
/// and its mark, 0 here, plays no part.
fn marks_of_lags(lag: &Table) -> (Vec<Entry>, Vec<Entry>) {
    let longest = |j: usize| largest(lag.iter().map(|row| row[j]));
    let due = |j: usize| Some(-longest(j).unwrap_or(0));
    (
        vec![Some(0); lag.len()],
        (0..lag[0].len()).map(due).collect(),
    )
}

/// A size line: "an absent size" is 2, "3: a size not 1 to 6".
fn read_size(rest: &mut &[u8], key: &[u8]) -> Result<usize, Refusal> {
    let size = read_line(rest, key, 1)?[0].ok_or(2u32)?;
    if !(1..=SIZE as i64).contains(&size) {
        return Err(3);
    }
    Ok(size as usize)
}

/// "the i-th lag or after line is row i"
fn read_rows(rest: &mut &[u8], key: &[u8], rows: usize, items: usize) -> Result<Table, Refusal> {
    (0..rows).map(|_| read_entries(rest, key, items)).collect()
}

/// No. 2: "A sheet may end with n more lines `land=` of m items"; "either all n lines are there or none,
/// which reads as all absent". The next key says which.
fn read_land(rest: &mut &[u8], triggers: usize, panels: usize) -> Result<Table, Refusal> {
    let key = b"land=";
    if rest.starts_with(key) {
        read_rows(rest, key, triggers, panels)
    } else {
        Ok(vec![vec![None; panels]; triggers])
    }
}

/// No. 5: "A sheet may end with a line `last=` of m present numbers, after any land lines; an absent one
/// is 5."
fn read_last(rest: &mut &[u8], panels: usize) -> Result<Option<Vec<Entry>>, Refusal> {
    let key = b"last=";
    let given = rest.starts_with(key);
    given.then(|| read_present(rest, key, panels)).transpose()
}

/// "4: an entry out of range", once the whole line is free of 2.
fn read_entries(rest: &mut &[u8], key: &[u8], items: usize) -> Result<Vec<Entry>, Refusal> {
    let entries = read_line(rest, key, items)?;
    if entries.iter().flatten().any(|v| v.abs() > LIMIT) {
        return Err(4);
    }
    Ok(entries)
}

/// "5: an absent due mark", or last moment, once the whole line is free of 2 and 4.
fn read_present(rest: &mut &[u8], key: &[u8], items: usize) -> Result<Vec<Entry>, Refusal> {
    let entries = read_entries(rest, key, items)?;
    if entries.iter().any(Option::is_none) {
        return Err(5);
    }
    Ok(entries)
}

/// "2: missing line, wrong key, item count, numeral or line end": takes one line off `rest`.
fn read_line(rest: &mut &[u8], key: &[u8], items: usize) -> Result<Vec<Entry>, Refusal> {
    let end = rest.iter().position(|&b| b == b'\n').ok_or(2u32)?;
    let line = &rest[..end];
    *rest = &rest[end + 1..];
    let text = line.strip_prefix(key).ok_or(2u32)?;
    let entries: Option<Vec<Entry>> = text.split(|&b| b == b',').map(item).collect();
    match entries {
        Some(entries) if entries.len() == items => Ok(entries),
        _ => Err(2),
    }
}

/// One item: "Absent is a lone minus", else a number; `None` for a wrong numeral.
fn item(text: &[u8]) -> Option<Entry> {
    if text == b"-" {
        return Some(None);
    }
    number(text).map(Some)
}

/// "A number is 0, or an optional minus, a digit 1 to 9 and any digits."
fn number(text: &[u8]) -> Option<i64> {
    if text == b"0" {
        return Some(0);
    }
    let (negative, digits) = match text.strip_prefix(b"-") {
        Some(digits) => (true, digits),
        None => (false, text),
    };
    let leads = matches!(digits.first(), Some(b'1'..=b'9'));
    if !leads || !digits.iter().all(u8::is_ascii_digit) {
        return None;
    }
    let size = magnitude(digits);
    Some(if negative { -size } else { size })
}

/// The digits' value, held at LIMIT + 1 from there on: "any digits" must not wrap.
fn magnitude(digits: &[u8]) -> i64 {
    digits.iter().fold(0, |value, digit| {
        (value * 10 + i64::from(digit - b'0')).min(LIMIT + 1)
    })
}

// ------------------------------------------------- Max-plus tables, steps 1 to 3

/// "absent plus anything is absent"
fn plus(a: Entry, b: Entry) -> Entry {
    Some(a? + b?)
}

/// The largest of some entries; absent if there is none.
fn largest(entries: impl Iterator<Item = Entry>) -> Entry {
    entries.max().flatten()
}

/// "In max-plus, sums are largest values and products are sums."
fn product(a: &Table, b: &Table) -> Table {
    let columns = b[0].len();
    let at = |row: &Vec<Entry>, j: usize| largest((0..b.len()).map(|k| plus(row[k], b[k][j])));
    a.iter()
        .map(|row| (0..columns).map(|j| at(row, j)).collect())
        .collect()
}

fn sum(a: &Table, b: &Table) -> Table {
    let add =
        |(x, y): (&Vec<Entry>, &Vec<Entry>)| x.iter().zip(y).map(|(x, y)| *x.max(y)).collect();
    a.iter().zip(b).map(add).collect()
}

/// "power 0 has 0 on the diagonal and absent elsewhere"
fn power_zero(n: usize) -> Table {
    let row = |i: usize| (0..n).map(|j| (i == j).then_some(0)).collect();
    (0..n).map(row).collect()
}

/// No. 2: "The order table of document 01 becomes the larger of the after table and land times lag."
fn order_table(sheet: &Sheet) -> Table {
    sum(&sheet.after, &product(&sheet.land, &sheet.lag))
}

/// The powers 0 to n of the order table.
fn powers(order: &Table) -> Vec<Table> {
    let n = order.len();
    let mut powers = vec![power_zero(n)];
    for k in 0..n {
        powers.push(product(&powers[k], order));
    }
    powers
}

/// "Timings that keep the order exist exactly when no diagonal entry of powers 1 to n is above 0."
fn order_can_be_kept(powers: &[Table]) -> bool {
    powers[1..]
        .iter()
        .all(|power| (0..power.len()).all(|i| power[i][i] <= Some(0)))
}

/// "M* is the sum of the powers 0 to n − 1 of the after table", now of the order table.
fn star(powers: &[Table]) -> Table {
    let n = powers.len() - 1;
    powers[1..n]
        .iter()
        .fold(powers[0].clone(), |star, power| sum(&star, power))
}

/// "r(j) is minus the largest of M*(i,j) − q(i)": present, for M*(j,j) and every due are.
fn new_due(star: &Table, due: &[Entry]) -> Vec<i64> {
    let n = due.len();
    let column = |j: usize| largest((0..n).map(|i| Some(star[i][j]? - due[i]?)));
    (0..n)
        .map(|j| -column(j).expect("M*(j,j) is present"))
        .collect()
}

/// Everything steps 1 to 4 give.
pub struct Tables {
    pub sheet: Sheet,
    pub star: Table,
    /// "d is a times M*"
    pub d: Table,
    pub r: Vec<i64>,
    pub deviation: i64,
    pub kept: Kept,
}

/// Steps 1 to 4; refusal 8: "no timing keeps the order".
pub fn tables(sheet: Sheet) -> Result<Tables, Refusal> {
    let powers = powers(&order_table(&sheet));
    if !order_can_be_kept(&powers) {
        return Err(8);
    }
    let star = star(&powers);
    let d = product(&sheet.lag, &star);
    let r = new_due(&star, &sheet.due);
    let deviation = least_deviation(&sheet.floor, &d, &r);
    let kept = kept_table(&sheet.floor, &d, &r, deviation);
    Ok(Tables {
        sheet,
        star,
        d,
        r,
        deviation,
        kept,
    })
}

/// Step 3: "the largest, over panels with a floor, of p(i) minus the largest d(i,j) + r(j)".
fn least_deviation(floor: &[Entry], d: &Table, r: &[i64]) -> i64 {
    let reach = |i: usize| largest((0..r.len()).map(|j| plus(d[i][j], Some(r[j]))));
    let panel = |i: usize| Some(floor[i]? - reach(i).expect("a panel has a lag"));
    largest((0..floor.len()).map(panel)).expect("one floor is present")
}

/// Step 4: "kept if it is present and at least p(i) − Δ − r(j). Panels without a floor keep none."
fn kept_table(floor: &[Entry], d: &Table, r: &[i64], deviation: i64) -> Kept {
    let mut kept = [[false; SIZE]; SIZE];
    for (i, row) in d.iter().enumerate() {
        for (j, entry) in row.iter().enumerate() {
            if let (Some(p), Some(d)) = (floor[i], entry) {
                kept[i][j] = *d >= p - deviation - r[j];
            }
        }
    }
    kept
}

/// "six bits in a byte, bit 0 for trigger 1, and the number of bits set is reported with it"
pub fn byte_and_count(row: &[bool; SIZE]) -> (u8, u32) {
    let set = (0..SIZE).filter(|&j| row[j]);
    let byte = set.clone().map(|j| 1u8 << j).sum();
    (byte, set.count() as u32)
}

// ---------------------------------------------------------------- Step 5: the walk

/// One complete selection: each panel with a floor, in sheet order, with its trigger.
pub type Selection = Vec<(usize, usize)>;

/// A whole walk: its fixings and its selections in order.
pub struct Walk {
    pub steps: u64,
    pub selections: Vec<Selection>,
}

/// "The walk takes panels with a floor in sheet order, triggers ascending."
pub fn walk(tables: &Tables) -> Walk {
    let floors: Vec<usize> = (0..tables.sheet.panels)
        .filter(|&i| tables.sheet.floor[i].is_some())
        .collect();
    let mut walk = Walk {
        steps: 0,
        selections: Vec::new(),
    };
    descend(tables, &floors, tables.kept, &mut Vec::new(), &mut walk);
    walk
}

/// "Fixing an entry goes down to the next panel; when that is used up, the walk returns to the next
/// trigger of the panel above, with the entries restored": `kept` is this level's own copy.
fn descend(tables: &Tables, floors: &[usize], kept: Kept, chosen: &mut Selection, walk: &mut Walk) {
    // "A selection is complete when each panel with a floor has its trigger."
    let Some((&i, later)) = floors.split_first() else {
        walk.selections.push(chosen.clone());
        return;
    };
    for j in (0..tables.sheet.triggers).filter(|&j| kept[i][j]) {
        // "Steps counts each fixing, panels with one trigger left included."
        walk.steps += 1;
        chosen.push((i, j));
        descend(
            tables,
            later,
            fixed(tables, later, kept, i, j),
            chosen,
            walk,
        );
        chosen.pop();
    }
}

/// "Fixing (i,j) leaves only (k,j) in a later such panel k when (k,j) is still kept and
/// d(k,j) − p(k) ≥ d(i,j) − p(i)."
fn fixed(tables: &Tables, later: &[usize], mut kept: Kept, i: usize, j: usize) -> Kept {
    let over = |panel: usize| {
        tables.d[panel][j]
            .zip(tables.sheet.floor[panel])
            .map(|(d, p)| d - p)
    };
    for &k in later {
        if kept[k][j] && over(k) >= over(i) {
            kept[k] = [false; SIZE];
            kept[k][j] = true;
        }
    }
    kept
}

// ---------------------------------------------------------- Steps 6 and 7: the list

/// "w(j): the largest p(i) − Δ − d(i,j) over panels that chose j, absent if none"
fn w(tables: &Tables, selection: &Selection) -> Line {
    let mut w = [None; SIZE];
    for &(i, j) in selection {
        let p = tables.sheet.floor[i].expect("a selected panel has a floor");
        let d = tables.d[i][j].expect("a kept entry is present");
        w[j] = w[j].max(Some(p - tables.deviation - d));
    }
    w
}

/// "take the vector with 0 at t and absent elsewhere, join it by componentwise largest with w minus
/// r(t), apply M*, and shift so that the greatest component is 0"
fn candidate(tables: &Tables, w: &Line, t: usize) -> Line {
    let n = tables.sheet.triggers;
    let mut vector: Line = w.map(|w| plus(w, Some(-tables.r[t])));
    vector[t] = vector[t].max(Some(0));
    let mut image = [None; SIZE];
    for i in 0..n {
        image[i] = largest((0..n).map(|j| plus(tables.star[i][j], vector[j])));
    }
    let greatest = largest(image.into_iter()).expect("component t is present");
    image.map(|component| plus(component, Some(-greatest)))
}

/// The distinct candidates of all selections, sorted: a set's order of lines is component 1, then 2
/// and so on, absent lowest.
///
/// No. 4: "Plans are worked out over the others". A spare trigger stays in the tables and in its place
/// here. It has its 0 on the diagonal of M* and no other entry in M* or d, so no panel keeps it, and the
/// others' candidates are absent there; its own are left out. So Δ, the kept table, steps and selections
/// are the same as if no trigger were called spare.
pub fn candidates(tables: &Tables, walk: &Walk) -> Vec<Line> {
    let mut distinct = BTreeSet::new();
    for selection in &walk.selections {
        let w = w(tables, selection);
        for t in tables.sheet.in_use() {
            distinct.insert(candidate(tables, &w, t));
        }
    }
    distinct.into_iter().collect()
}

/// The largest weight with which `line` stays at or below `target` in every component, possibly
/// absent. `line` has a present component.
fn largest_weight(target: &Line, line: &Line) -> Entry {
    let room = |k: usize| line[k].map(|c| target[k].map(|t| t - c));
    (0..SIZE).filter_map(room).min().flatten()
}

/// "A max-plus combination of lines adds a weight to each line and takes the largest, component by
/// component", weights possibly absent. If any weights give `target`, the largest ones that fit do:
/// they give at least as much and never too much.
fn is_combination<'a>(target: &Line, lines: impl Iterator<Item = &'a Line>) -> bool {
    let mut combined = [None; SIZE];
    for line in lines {
        let weight = largest_weight(target, line);
        for k in 0..SIZE {
            combined[k] = combined[k].max(plus(weight, line[k]));
        }
    }
    combined == *target
}

/// "The list holds each distinct candidate that is no combination of the other distinct
/// candidates."
pub fn list(candidates: &[Line]) -> Vec<Line> {
    let stays = |at: &usize| {
        let others = candidates
            .iter()
            .enumerate()
            .filter(|(other, _)| other != at);
        !is_combination(&candidates[*at], others.map(|(_, line)| line))
    };
    (0..candidates.len())
        .filter(stays)
        .map(|at| candidates[at])
        .collect()
}

// ---------------------------------------------------------------- No. 5: the caps

/// A line with a weight added to each component.
fn weighted(line: &Line, weight: i64) -> Line {
    line.map(|component| plus(component, Some(weight)))
}

/// "the largest weight for which no landing of that line is later than allowed", found by trying weights;
/// none without a last line. "Every line reaches some panel, so a cap always exists."
pub fn cap(sheet: &Sheet, line: &Line) -> Option<i64> {
    sheet.last.as_ref()?;
    let allowed = |weight| in_time(sheet, &weighted(line, weight)[..sheet.triggers]);
    Some(largest_allowed(allowed).expect("every line reaches some panel"))
}

/// The largest number that is allowed, where every number below an allowed one is; none if there is no
/// largest.
pub fn largest_allowed(allowed: impl Fn(i64) -> bool) -> Option<i64> {
    // Beyond every sum of a sheet's entries and tested times.
    const FAR: i64 = 1 << 40;
    let (mut yes, mut no) = (-FAR, FAR);
    if !allowed(yes) || allowed(no) {
        return None;
    }
    while yes + 1 < no {
        let between = (yes + no) / 2;
        *(if allowed(between) { &mut yes } else { &mut no }) = between;
    }
    Some(yes)
}

// ---------------------------------------------------------------- The operations

/// "Kept table and walk": what it gives, and what planning goes on from.
pub struct Survey {
    pub tables: Tables,
    pub walk: Walk,
}

/// "Reading's refusals, then 8."
pub fn survey(sheet: &[u8]) -> Result<Survey, Refusal> {
    Ok(walked(tables(read(sheet)?)?))
}

pub fn walked(tables: Tables) -> Survey {
    let walk = walk(&tables);
    Survey { tables, walk }
}

impl Survey {
    pub fn deviation(&self) -> i64 {
        self.tables.deviation
    }

    pub fn selections(&self) -> u64 {
        self.walk.selections.len() as u64
    }

    /// "each panel's byte and bit count (0 and 0 without a floor)"
    pub fn panels(&self) -> Vec<(u8, u32)> {
        let rows = &self.tables.kept[..self.tables.sheet.panels];
        rows.iter().map(byte_and_count).collect()
    }

    /// Steps 6 and 7. This is the slow part: it grows with the square of the distinct candidates.
    pub fn lines(&self) -> Vec<Line> {
        list(&candidates(&self.tables, &self.walk))
    }
}

/// "A success returns Δ, steps, selections and count"; with No. 4 it also tells the spare triggers, which
/// in the lent space look like any absent component, and with No. 5 how many words a line takes.
#[derive(Clone, Copy, Debug, PartialEq, Eq)]
pub struct Plan {
    pub deviation: i64,
    pub steps: u64,
    pub selections: u64,
    pub count: usize,
    /// Bit 0 for trigger 1.
    pub spares: u8,
    pub line_words: usize,
}

/// "A refusal returns its number and no other result but 9's count."
#[derive(Clone, Copy, Debug, PartialEq, Eq)]
pub enum NoPlan {
    Refused(Refusal),
    /// 9, with "the count needed", and how many words each of these lines takes.
    SpaceTooSmall {
        count: usize,
        line_words: usize,
    },
}

/// "Planning".
pub fn plan(sheet: &[u8], space: &mut [i32]) -> Result<Plan, NoPlan> {
    let survey = survey(sheet).map_err(NoPlan::Refused)?;
    finish_plan(&survey, &survey.lines(), space)
}

/// The end of planning, once the list is known: "writes exactly the list at the front of the space
/// and leaves the rest"; 9 changes no lent word; "words too few for a line hold none".
pub fn finish_plan(survey: &Survey, lines: &[Line], space: &mut [i32]) -> Result<Plan, NoPlan> {
    let sheet = &survey.tables.sheet;
    let (count, line_words) = (lines.len(), sheet.line_words());
    if count > space.len() / line_words {
        return Err(NoPlan::SpaceTooSmall { count, line_words });
    }
    for (line, words) in lines.iter().zip(space.chunks_exact_mut(line_words)) {
        words.copy_from_slice(&words_of(sheet, line));
    }
    Ok(Plan {
        deviation: survey.deviation(),
        steps: survey.walk.steps,
        selections: survey.selections(),
        count,
        spares: sheet.spares(),
        line_words,
    })
}

/// "a line carries its count of triggers and its six components", "absent being the least such
/// number"; "its cap the eighth".
fn words_of(sheet: &Sheet, line: &Line) -> Vec<i32> {
    let word = |v: i64| i32::try_from(v).expect("all finite results fit signed 32 bits");
    let components = line.iter().map(|entry| entry.map_or(i32::MIN, word));
    let cap = cap(sheet, line).map(word);
    let count = sheet.triggers as i32;
    std::iter::once(count)
        .chain(components)
        .chain(cap)
        .collect()
}

/// How two lists stand to one another; "Two lists are the same when their counts are equal and, at each
/// place, both lines carry the same count of triggers and the same six components". By demand 3 they
/// are "exactly when every timing is tightest on both or on neither", which needs equal numbers of
/// triggers, and "Two sheets may be compared for equal lists only where the same triggers are spare". No. 5:
/// "demand 3 compares lists with their caps left out and timings with the last moments left out, also
/// between a sheet with a last line and one without".
#[derive(Clone, Copy, Debug, PartialEq, Eq)]
pub enum Likeness {
    Same,
    Different,
    Unlike,
}

/// Likeness, the counts of the two lists, and how many words a line of each takes.
pub type Compared = (Likeness, [usize; 2], [usize; 2]);

/// Planning refuses the first sheet, or the second and not the first.
#[derive(Clone, Copy, Debug, PartialEq, Eq)]
pub enum NotCompared {
    First(NoPlan),
    Second(NoPlan),
}

/// Two sheets planned and their lists compared: "Any later operation that writes also writes at the
/// front, returns how much it wrote and leaves the rest"; "A refusal … changes no lent byte or word".
pub fn same(
    first: &[u8],
    second: &[u8],
    left: &mut [i32],
    right: &mut [i32],
) -> Result<Compared, NotCompared> {
    let (mut one, mut other) = (left.to_vec(), right.to_vec());
    let p = plan(first, &mut one).map_err(NotCompared::First)?;
    let q = plan(second, &mut other).map_err(NotCompared::Second)?;
    left.copy_from_slice(&one);
    right.copy_from_slice(&other);
    // A list is never empty, and each of its lines begins with the sheet's number of triggers.
    let likeness = if one[0] != other[0] || p.spares != q.spares {
        Likeness::Unlike
    } else if without_caps(&one, &p).eq(without_caps(&other, &q)) {
        Likeness::Same
    } else {
        Likeness::Different
    };
    let line_words = [p.line_words, q.line_words];
    Ok((likeness, [p.count, q.count], line_words))
}

/// The first seven words of each line in a space.
fn without_caps<'a>(space: &'a [i32], plan: &Plan) -> impl Iterator<Item = &'a [i32]> {
    let lines = space.chunks_exact(plan.line_words).take(plan.count);
    lines.map(|words| &words[..LINE_WORDS])
}

/// "Reading's, then 10: not n components; 11: one beyond ±1,000,000,000; then 8."
pub fn admitted(sheet: &[u8], times: &[i64]) -> Result<Tables, Refusal> {
    let sheet = read(sheet)?;
    if times.len() != sheet.triggers {
        return Err(10);
    }
    if times
        .iter()
        .any(|t| !(-LONGEST_TIME..=LONGEST_TIME).contains(t))
    {
        return Err(11);
    }
    tables(sheet)
}

/// "Testing a timing": the refusals above. "Otherwise yes exactly when the timing is tightest, else no."
/// No. 5: "testing and No. 1 include" the last moments.
pub fn test(sheet: &[u8], times: &[i64]) -> Result<bool, Refusal> {
    let Tables {
        sheet,
        deviation: least,
        ..
    } = admitted(sheet, times)?;
    let x: Vec<Entry> = times.iter().copied().map(Some).collect();
    Ok(keeps_order(&sheet, &x) && deviation(&sheet, &x) == Some(least) && in_time(&sheet, &x))
}

/// "A timing keeps the order when it keeps every after rule": x(i) ≥ b(i,j) + x(j); by No. 2 it also
/// keeps every land rule: x(i) ≥ c(i,j) + y(j).
fn keeps_order(sheet: &Sheet, x: &[Entry]) -> bool {
    let y: Vec<Entry> = (0..sheet.panels).map(|i| landing(sheet, x, i)).collect();
    rules_kept(&sheet.after, x, x) && rules_kept(&sheet.land, x, &y)
}

/// Every rule of a table: each time of x is at least a rule of its row plus the time that it waits for.
fn rules_kept(rules: &Table, x: &[Entry], waited_for: &[Entry]) -> bool {
    let kept = |row: &[Entry], x: Entry| {
        let mut bounds = row.iter().zip(waited_for).map(|(a, b)| plus(*a, *b));
        bounds.all(|bound| x >= bound)
    };
    rules.iter().zip(x).all(|(row, x)| kept(row, *x))
}

/// "Deviation is the largest x(j) − q(j) plus the largest p(i) − y(i) over panels with a floor." By
/// No. 4 "The largest x(j) − q(j) is taken over triggers that are not spare." No. 7: "Houses now measure a cue by
/// the spread of landings".
fn deviation(sheet: &Sheet, x: &[Entry]) -> Entry {
    if sheet.by_spread {
        return spread(sheet, x);
    }
    let late = largest(sheet.in_use().map(|j| Some(x[j]? - sheet.due[j]?)));
    let short = largest((0..sheet.panels).map(|i| Some(sheet.floor[i]? - landing(sheet, x, i)?)));
    plus(late, short)
}

/// "the spread of landings, latest less earliest"
pub fn spread(sheet: &Sheet, x: &[Entry]) -> Entry {
    let landings = || (0..sheet.panels).map(|i| landing(sheet, x, i));
    Some(landings().max()?? - landings().min()??)
}

/// No. 5: whether times, or a line with a weight, meet "every last moment", if the sheet has any. An absent
/// landing is below every moment.
fn in_time(sheet: &Sheet, x: &[Entry]) -> bool {
    let meets = |last: &Vec<Entry>| (0..sheet.panels).all(|i| landing(sheet, x, i) <= last[i]);
    sheet.last.iter().all(meets)
}

/// "Landing y(i) is the largest a(i,j) + x(j)."
fn landing(sheet: &Sheet, x: &[Entry], i: usize) -> Entry {
    largest((0..x.len()).map(|j| plus(sheet.lag[i][j], x[j])))
}

// ------------------------------------------------------------ What the programs write

/// The planning program's text for a sheet.
pub fn plan_text(sheet: &[u8]) -> String {
    let line_words = read(sheet).map_or(LINE_WORDS, |sheet| sheet.line_words());
    let mut space = vec![0; PROGRAM_LINES * line_words];
    plan_answer_text(&plan(sheet, &mut space), &space)
}

/// "The fields are Δ, the walk's fixings, its selections, the number of lines, then each line,
/// trigger 1 first. A refusal is written `refused=` and its number, LF." No. 4: "a spare component is
/// written `s` in every line"; No. 5: "Each line of the plan then gains its own following line `cap=`".
pub fn plan_answer_text(answer: &Result<Plan, NoPlan>, space: &[i32]) -> String {
    match answer {
        Ok(plan) => {
            let lines = space.chunks_exact(plan.line_words).take(plan.count);
            let lines: String = lines.map(|words| line_text(words, plan.spares)).collect();
            format!(
                "deviation={}\nsteps={}\nselections={}\ncount={}\n{lines}",
                plan.deviation, plan.steps, plan.selections, plan.count
            )
        }
        Err(NoPlan::Refused(number)) => format!("refused={number}\n"),
        Err(NoPlan::SpaceTooSmall { count, .. }) => format!("refused=9\ncount={count}\n"),
    }
}

fn line_text(words: &[i32], spares: u8) -> String {
    let component = |(j, word): (usize, &i32)| match *word {
        _ if spares >> j & 1 == 1 => "s".to_string(),
        i32::MIN => "-".to_string(),
        value => value.to_string(),
    };
    let components = words[1..=words[0] as usize].iter().enumerate();
    let shown: Vec<String> = components.map(component).collect();
    let cap = words.get(LINE_WORDS).map(|cap| format!("cap={cap}\n"));
    format!("line={}\n{}", shown.join(","), cap.unwrap_or_default())
}

/// The kept program's text for a sheet.
pub fn kept_text(sheet: &[u8]) -> String {
    let survey = match survey(sheet) {
        Ok(survey) => survey,
        Err(number) => return format!("refused={number}\n"),
    };
    let panels = survey.panels();
    let panels: String = panels
        .iter()
        .map(|(byte, count)| format!("kept={byte},{count}\n"))
        .collect();
    format!(
        "deviation={}\n{panels}steps={}\nselections={}\n",
        survey.deviation(),
        survey.walk.steps,
        survey.selections()
    )
}
