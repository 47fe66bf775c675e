//! Steps 1 to 4: star, product, new due marks, least deviation and kept triggers.

use super::entry::{
    ABSENT, Entry, Line, MOST, NO_LINE, Table, join, largest, minus, present, raise, row_product,
    settle, sums,
};
use super::sheet::{Refusal, Sheet};

/// What the walk and the lines are drawn from. A spare trigger keeps its place: it has its 0 on the
/// diagonal of M* and no other entry, so that no panel keeps it and no line of another has it.
pub struct Cue {
    pub sheet: Sheet,
    /// Bit 0 for trigger 1.
    pub spares: u8,
    /// M*, and its columns.
    pub star: Table,
    pub columns: Table,
    /// r, the new due marks
    pub marks: Line,
    /// Δ
    pub deviation: Entry,
    /// How late each trigger lands, fired at 0, where there are last moments.
    pub overruns: Option<Line>,
    levels: [Level; MOST],
    floors: usize,
}

/// A panel with a floor. Gains and needs are of use for its kept triggers alone.
#[derive(Clone, Copy)]
pub struct Level {
    pub lag: Line,
    /// p(i) − Δ
    pub ask: Entry,
    /// The kept triggers, bit 0 for trigger 1.
    pub kept: u8,
    /// d(i,j) − p(i)
    pub gains: Line,
    /// p(i) − Δ − d(i,j)
    pub needs: Line,
}

const NO_LEVEL: Level = Level {
    lag: NO_LINE,
    ask: ABSENT,
    kept: 0,
    gains: NO_LINE,
    needs: NO_LINE,
};

impl Cue {
    pub const NONE: Cue = Cue {
        sheet: Sheet::NONE,
        spares: 0,
        star: [NO_LINE; MOST],
        columns: [NO_LINE; MOST],
        marks: NO_LINE,
        deviation: ABSENT,
        overruns: None,
        levels: [NO_LEVEL; MOST],
        floors: 0,
    };

    /// Prepares a sheet's cue in the place of none: it is too large to be handed back.
    pub fn prepare(&mut self, bytes: &[u8]) -> Result<(), Refusal> {
        let sheet = &mut self.sheet;
        sheet.read(bytes)?;
        self.star = order(sheet);
        if !close(&mut self.star[..sheet.triggers]) {
            return Err(Refusal::NoOrder);
        }
        transpose(&self.star, &mut self.columns);
        self.spares = sheet.spares();
        self.marks = marks(&self.star, &sheet.due);
        self.deviation = deviation(sheet, &self.marks);
        self.overruns = sheet.last.map(|last| overruns(&sheet.lag, &last));
        for (lag, floor) in sheet.floored() {
            let through = row_product(lag, &self.star);
            let level = &mut self.levels[self.floors];
            *level = Level::new(lag, &through, &self.marks, floor, self.deviation);
            self.floors += 1;
        }
        Ok(())
    }

    /// The triggers that are not spare.
    pub fn in_use(&self) -> impl Iterator<Item = usize> {
        (0..self.sheet.triggers).filter(|j| self.spares >> j & 1 == 0)
    }

    /// The panels with a floor, in sheet order.
    pub fn levels(&self) -> &[Level] {
        &self.levels[..self.floors]
    }
}

impl Level {
    fn new(lag: &Line, through: &Line, marks: &Line, floor: Entry, deviation: Entry) -> Level {
        let ask = floor - deviation;
        let reach = through.iter().zip(marks).take(MOST).rev();
        Level {
            lag: *lag,
            ask,
            kept: reach.fold(0, |set, (d, mark)| set << 1 | u8::from(d + mark >= ask)),
            gains: through.map(|d| d - floor),
            needs: through.map(|d| ask - d),
        }
    }
}

/// The larger of the after table and land times lag.
fn order(sheet: &Sheet) -> Table {
    let mut order = sheet.after;
    if let Some(land) = &sheet.land {
        for (row, land) in order.iter_mut().zip(land) {
            join(row, &row_product(land, &sheet.lag));
        }
    }
    order
}

/// Makes M* of the order table, if no circle is above 0: the largest sums of rules along ways through the triggers.
/// The ways through the first triggers give those through one more; a circle is met at its last trigger.
fn close(table: &mut [Line]) -> bool {
    for k in 0..table.len() {
        if table[k][k] > 0 {
            return false;
        }
        table[k][k] = 0;
        let onward = table[k];
        for row in table.iter_mut() {
            if present(row[k]) {
                raise(row, &onward, row[k]);
            }
        }
    }
    table.iter_mut().for_each(settle);
    true
}

fn transpose(rows: &Table, columns: &mut Table) {
    for (i, row) in rows.iter().enumerate() {
        for (column, &entry) in columns.iter_mut().zip(row) {
            column[i] = entry;
        }
    }
}

/// r(j), minus the largest of M*(i,j) − q(i). Under rule 2 a spare trigger has no due mark.
fn marks(star: &Table, due: &Line) -> Line {
    let mut pulls = NO_LINE;
    for (row, &due) in star.iter().zip(due) {
        if present(due) {
            raise(&mut pulls, row, -due);
        }
    }
    pulls.map(|pull| minus(0, pull))
}

/// Δ, the largest of p(i) minus the largest d(i,j) + r(j), over panels with a floor. The marks keep the order, so
/// that a(i,j) + r(j) is as large.
fn deviation(sheet: &Sheet, marks: &Line) -> Entry {
    let short = sheet.floored();
    short.fold(ABSENT, |most, (lag, floor)| {
        most.max(floor - largest(&sums(lag, marks)))
    })
}

/// For each trigger the largest a(i,j) − last(i), absent where it reaches no panel.
fn overruns(lag: &Table, last: &Line) -> Line {
    let mut overruns = NO_LINE;
    for (row, &last) in lag.iter().zip(last) {
        join(&mut overruns, &row.map(|lag| minus(lag, last)));
    }
    overruns
}
