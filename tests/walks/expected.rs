//! What crates/walk_cases has to write, worked out literally by document 01, steps 1 to 6: the walk is a
//! recursion that restores the entries, and every state's w is made afresh from the panels fixed in it.
//! By document 02's No. 4 the walk has the triggers that are not spare, counted among themselves.
//!   expected CASES          writes the text
//!   expected CASES STORED   compares it with the stored one, line by line; the last line is: N passed, M failed

use std::fmt::Write;
use std::process::ExitCode;

/// A number or absent. `None` is absent: `Option`'s own order puts it below every number.
type Entry = Option<i64>;
type Table = Vec<Vec<Entry>>;

struct Sheet {
    panels: usize,
    triggers: usize,
    lag: Table,
    floor: Vec<Entry>,
    due: Vec<i64>,
    after: Table,
    land: Table,
}

// ---------------------------------------------------------------- The sheet

/// The items of the lines with the given key.
fn rows(text: &str, key: &str) -> Table {
    let item = |item: &str| (item != "-").then(|| item.parse().expect("a number"));
    let items = |line: &str| line.split(',').map(item).collect();
    text.lines()
        .filter_map(|line| line.strip_prefix(key))
        .map(items)
        .collect()
}

/// A sheet that is written rightly: how a sheet is read is not under test here.
fn sheet(text: &str) -> Sheet {
    let size = |key| rows(text, key)[0][0].expect("a size") as usize;
    let (panels, triggers) = (size("panels="), size("triggers="));
    let land = rows(text, "land=");
    Sheet {
        panels,
        triggers,
        lag: rows(text, "lag="),
        floor: rows(text, "floor=").remove(0),
        due: rows(text, "due=")[0]
            .iter()
            .map(|q| q.expect("a due mark"))
            .collect(),
        after: rows(text, "after="),
        // "or none, which reads as all absent"
        land: if land.is_empty() {
            vec![vec![None; panels]; triggers]
        } else {
            land
        },
    }
}

impl Sheet {
    /// "no lag to any panel, no present after entry in its row or column, and no present land entry in its
    /// row"
    fn is_spare(&self, j: usize) -> bool {
        let no_row = |table: &Table| table[j].iter().all(Option::is_none);
        let no_column = |table: &Table| table.iter().all(|row| row[j].is_none());
        no_column(&self.lag) && no_row(&self.after) && no_column(&self.after) && no_row(&self.land)
    }

    /// "Plans are worked out over the others."
    fn of_the_others(&self) -> Sheet {
        let places: Vec<usize> = (0..self.triggers).filter(|&j| !self.is_spare(j)).collect();
        let items = |row: &Vec<Entry>| places.iter().map(|&j| row[j]).collect();
        let rows = |table: &Table| -> Table { places.iter().map(|&j| table[j].clone()).collect() };
        Sheet {
            panels: self.panels,
            triggers: places.len(),
            lag: self.lag.iter().map(items).collect(),
            floor: self.floor.clone(),
            due: places.iter().map(|&j| self.due[j]).collect(),
            after: rows(&self.after).iter().map(items).collect(),
            land: rows(&self.land),
        }
    }
}

// ---------------------------------------------------------------- Max-plus

/// "absent plus anything is absent"
fn plus(a: Entry, b: Entry) -> Entry {
    Some(a? + b?)
}

/// "sums are largest values"
fn sum(a: &Table, b: &Table) -> Table {
    let row =
        |(a, b): (&Vec<Entry>, &Vec<Entry>)| a.iter().zip(b).map(|(a, b)| *a.max(b)).collect();
    a.iter().zip(b).map(row).collect()
}

/// "products are sums"
fn product(a: &Table, b: &Table) -> Table {
    let entry = |row: &[Entry], j: usize| {
        row.iter()
            .zip(b)
            .map(|(x, y)| plus(*x, y[j]))
            .max()
            .flatten()
    };
    a.iter()
        .map(|row| (0..b[0].len()).map(|j| entry(row, j)).collect())
        .collect()
}

/// "the powers 0 to n": "power 0 has 0 on the diagonal and absent elsewhere"
fn powers(table: &Table, n: usize) -> Vec<Table> {
    let unit = (0..n)
        .map(|i| (0..n).map(|j| (i == j).then_some(0)).collect())
        .collect();
    let mut powers = vec![unit];
    for k in 0..n {
        powers.push(product(&powers[k], table));
    }
    powers
}

// ---------------------------------------------------------------- Steps 1 to 4

struct Cue {
    sheet: Sheet,
    through: Table,
    deviation: i64,
    kept: Vec<Vec<bool>>,
}

/// M*, or nothing where no timing keeps the order.
fn star(sheet: &Sheet) -> Option<Table> {
    let n = sheet.triggers;
    // "the larger of the after table and land times lag"
    let order = sum(&sheet.after, &product(&sheet.land, &sheet.lag));
    let powers = powers(&order, n);
    // "exactly when no diagonal entry of powers 1 to n is above 0"
    let above_zero = |power: &Table| (0..n).any(|i| power[i][i] > Some(0));
    if powers[1..].iter().any(above_zero) {
        return None;
    }
    // "the sum of the powers 0 to n − 1"
    powers
        .into_iter()
        .take(n)
        .reduce(|total, power| sum(&total, &power))
}

/// r: "minus the largest of M*(i,j) − q(i)"
fn new_due(sheet: &Sheet, star: &Table) -> Vec<i64> {
    let n = sheet.triggers;
    let largest = |j: usize| {
        (0..n)
            .filter_map(|i| Some(star[i][j]? - sheet.due[i]))
            .max()
    };
    (0..n)
        .map(|j| -largest(j).expect("the diagonal is present"))
        .collect()
}

/// The cue, or the refusal: 7 or 8.
fn cue(sheet: Sheet) -> Result<Cue, u8> {
    let (m, n) = (sheet.panels, sheet.triggers);
    if sheet.floor.iter().all(Option::is_none) {
        return Err(7);
    }
    let star = star(&sheet).ok_or(8)?;
    let through = product(&sheet.lag, &star);
    let due = new_due(&sheet, &star);
    // "the largest, over panels with a floor, of p(i) minus the largest d(i,j) + r(j)"
    let reach = |i: usize| (0..n).filter_map(|j| Some(through[i][j]? + due[j])).max();
    let deviation = (0..m)
        .filter_map(|i| Some(sheet.floor[i]? - reach(i)?))
        .max();
    let deviation = deviation.expect("each panel has a lag");
    // "present and at least p(i) − Δ − r(j). Panels without a floor keep none."
    let entry = |i: usize, j: usize| Some(through[i][j]? >= sheet.floor[i]? - deviation - due[j]);
    let row = |i: usize| (0..n).map(|j| entry(i, j) == Some(true)).collect();
    let kept = (0..m).map(row).collect();
    Ok(Cue {
        sheet,
        through,
        deviation,
        kept,
    })
}

// ---------------------------------------------------------------- Steps 5 and 6

impl Cue {
    fn floor(&self, i: usize) -> i64 {
        self.sheet.floor[i].expect("a floor")
    }

    fn through(&self, i: usize, j: usize) -> i64 {
        self.through[i][j].expect("a kept entry")
    }

    /// "the largest p(i) − Δ − d(i,j) over panels that chose j, absent if none"
    fn w(&self, fixed: &[(usize, usize)], j: usize) -> Entry {
        let asked = |&(i, _): &(usize, usize)| self.floor(i) - self.deviation - self.through(i, j);
        fixed
            .iter()
            .filter(|(_, chosen)| *chosen == j)
            .map(asked)
            .max()
    }

    fn state(&self, fixed: &[(usize, usize)], fixings: u32) -> String {
        let w: Vec<String> = (0..self.sheet.triggers)
            .map(|j| shown(self.w(fixed, j)))
            .collect();
        format!("w={} fixed={} fixings={fixings}", w.join(","), fixed.len())
    }
}

fn shown(entry: Entry) -> String {
    entry.map_or("-".to_string(), |number| number.to_string())
}

struct Walk<'a> {
    cue: &'a Cue,
    kept: Vec<Vec<bool>>,
    fixed: Vec<(usize, usize)>,
    fixings: u32,
    text: String,
}

impl Walk<'_> {
    /// "The walk takes panels with a floor in sheet order, triggers ascending."
    fn from_panel(&mut self, i: usize) {
        if i == self.cue.sheet.panels {
            return self.selection();
        }
        if self.cue.sheet.floor[i].is_none() {
            return self.from_panel(i + 1);
        }
        for j in 0..self.cue.sheet.triggers {
            if self.kept[i][j] {
                let before = self.kept.clone();
                self.fixed.push((i, j));
                self.fixings += 1;
                self.fix(i, j);
                self.from_panel(i + 1);
                self.fixed.pop();
                // "with the entries restored"
                self.kept = before;
            }
        }
    }

    /// "Fixing (i,j) leaves only (k,j) in a later such panel k when (k,j) is still kept and
    /// d(k,j) − p(k) ≥ d(i,j) − p(i)."
    fn fix(&mut self, i: usize, j: usize) {
        let gain = |i: usize| self.cue.through(i, j) - self.cue.floor(i);
        for k in i + 1..self.cue.sheet.panels {
            if self.kept[k][j] && gain(k) >= gain(i) {
                self.kept[k].fill(false);
                self.kept[k][j] = true;
            }
        }
    }

    fn selection(&mut self) {
        let chosen: Vec<String> = self
            .fixed
            .iter()
            .map(|(_, j)| (j + 1).to_string())
            .collect();
        self.line(&format!("selection={}", chosen.join(",")));
    }

    /// A line for the state as it is now.
    fn line(&mut self, what: &str) {
        let state = self.cue.state(&self.fixed, self.fixings);
        writeln!(self.text, "{what} {state}").expect("a string takes all");
    }
}

// ---------------------------------------------------------------- The cases

/// Every state of the walk of a sheet, or its refusal.
fn walked(text: &str) -> String {
    let cue = match cue(sheet(text).of_the_others()) {
        Ok(cue) => cue,
        Err(refusal) => return format!("refused={refusal}\n"),
    };
    let kept = cue.kept.clone();
    let mut walk = Walk {
        cue: &cue,
        kept,
        fixed: Vec::new(),
        fixings: 0,
        text: String::new(),
    };
    walk.line("start");
    walk.from_panel(0);
    walk.line("end");
    // "after the end it gives the end again, unchanged"
    walk.line("again");
    walk.text
}

/// Cases are `label|sheet;`, and a label has the line end before it.
fn expected(cases: &str) -> String {
    let one = |case: &str| {
        case.split_once('|')
            .map(|(label, text)| format!("{label}\n{}", walked(text)))
    };
    cases.split(';').filter_map(one).collect()
}

/// Compares line by line, line ends too.
fn compare(expected: &str, stored: &str) -> ExitCode {
    let lines =
        |text: &str| -> Vec<String> { text.split_inclusive('\n').map(str::to_string).collect() };
    let (expected, stored) = (lines(expected), lines(stored));
    let mut failed = 0;
    let most = expected.len().max(stored.len());
    for k in 0..most {
        if expected.get(k) != stored.get(k) {
            failed += 1;
            println!(
                "line {}: expected {:?}, stored {:?}",
                k + 1,
                expected.get(k),
                stored.get(k)
            );
        }
    }
    println!("{} passed, {failed} failed", most - failed);
    ExitCode::from(u8::from(failed > 0 || most == 0))
}

fn main() -> ExitCode {
    let arguments: Vec<String> = std::env::args().skip(1).collect();
    let text = |path: &String| std::fs::read_to_string(path).expect("a file of text");
    match arguments.as_slice() {
        [cases] => print!("{}", expected(&text(cases))),
        [cases, stored] => return compare(&expected(&text(cases)), &text(stored)),
        _ => return ExitCode::from(2),
    }
    ExitCode::SUCCESS
}
