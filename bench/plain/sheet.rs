//! Reading a sheet: its tables, or the refusal of the first fault met.

use super::entry::{
    ABSENT, Entry, Line, MOST, NO_LINE, Table, join, largest, minus, places, present,
};
use super::item::{LIMIT, item};

/// The most bytes that a sheet may have.
pub const LONGEST: usize = 2048;

/// The refusals before the list is known: document 01's, and 14 of document 02's No. 7.
#[derive(Clone, Copy)]
pub enum Refusal {
    TooLong = 1,
    Form = 2,
    Size = 3,
    Range = 4,
    NoMark = 5,
    NoLag = 6,
    NoFloor = 7,
    NoOrder = 8,
    Lagless = 14,
}

pub struct Sheet {
    pub panels: usize,
    pub triggers: usize,
    pub lag: Table,
    pub floor: Line,
    pub due: Line,
    pub after: Table,
    /// The land lines, where there are some: a row for each trigger, a place for each panel.
    pub land: Option<Table>,
    /// The last moment of each panel, where there is a last line.
    pub last: Option<Line>,
}

impl Sheet {
    pub const NONE: Sheet = Sheet {
        panels: 0,
        triggers: 0,
        lag: [NO_LINE; MOST],
        floor: NO_LINE,
        due: NO_LINE,
        after: [NO_LINE; MOST],
        land: None,
        last: None,
    };

    /// Reads a sheet in the place of none.
    pub fn read(&mut self, bytes: &[u8]) -> Result<(), Refusal> {
        if bytes.len() > LONGEST {
            return Err(Refusal::TooLong);
        }
        let mut reader = Reader { bytes, at: 0 };
        let by_spread = reader.rule()?;
        self.panels = reader.size(b"panels=")?;
        self.triggers = reader.size(b"triggers=")?;
        let (m, n) = (self.panels, self.triggers);
        reader.rows(b"lag=", &mut self.lag[..m], n)?;
        if by_spread {
            self.mark_by_lags();
        } else {
            reader.entries(b"floor=", &mut self.floor[..m])?;
            reader.present(b"due=", &mut self.due[..n])?;
        }
        reader.rows(b"after=", &mut self.after[..n], n)?;
        if reader.follows(b"land=") {
            let land = self.land.insert([NO_LINE; MOST]);
            reader.rows(b"land=", &mut land[..n], m)?;
        }
        if reader.follows(b"last=") {
            let last = self.last.insert(NO_LINE);
            reader.present(b"last=", &mut last[..m])?;
        }
        if reader.at != bytes.len() {
            return Err(Refusal::Form);
        }
        self.complete(by_spread)
    }

    /// What is asked of all lines together.
    fn complete(&self, by_spread: bool) -> Result<(), Refusal> {
        if self.lag[..self.panels].contains(&NO_LINE) {
            return Err(Refusal::NoLag);
        }
        if self.floor == NO_LINE {
            return Err(Refusal::NoFloor);
        }
        if by_spread && self.lagless() != self.spares() {
            return Err(Refusal::Lagless);
        }
        Ok(())
    }

    /// The panels with a floor, each with its row of lags and its floor.
    pub fn floored(&self) -> impl Iterator<Item = (&Line, Entry)> {
        let panels = self.lag.iter().zip(self.floor);
        panels.filter(|&(_, floor)| present(floor))
    }

    /// The spare triggers, bit 0 for trigger 1: no lag, no after entry in the row or column, and no land
    /// entry in the row.
    pub fn spares(&self) -> u8 {
        let lagless = self.lagless();
        if lagless == 0 {
            0
        } else {
            lagless & self.without_rules()
        }
    }

    /// The triggers without an after entry in the row or column and without a land entry in the row.
    fn without_rules(&self) -> u8 {
        let mut most = NO_LINE;
        self.after.iter().for_each(|row| join(&mut most, row));
        for rules in [Some(&self.after), self.land.as_ref()]
            .into_iter()
            .flatten()
        {
            for (most, row) in most.iter_mut().zip(rules) {
                *most = (*most).max(largest(row));
            }
        }
        places(&most, ABSENT)
    }

    /// The triggers without a lag.
    fn lagless(&self) -> u8 {
        places(&self.longest_lags(), ABSENT) % (1 << self.triggers)
    }

    /// The largest lag of each trigger, absent where it has none.
    fn longest_lags(&self) -> Line {
        let mut most = NO_LINE;
        self.lag.iter().for_each(|row| join(&mut most, row));
        most
    }

    /// The marks that count under rule 2: floors of 0, and each trigger due so long before 0 as its largest lag.
    fn mark_by_lags(&mut self) {
        self.floor[..self.panels].fill(0);
        self.due = self.longest_lags().map(|lag| minus(0, lag));
    }
}

/// The bytes, and where the next line begins.
struct Reader<'a> {
    bytes: &'a [u8],
    at: usize,
}

impl Reader<'_> {
    /// Whether the sheet begins with the line of rule 2.
    fn rule(&mut self) -> Result<bool, Refusal> {
        const LINE: &[u8; 7] = b"rule=2\n";
        if !self.follows(b"rule=") {
            return Ok(false);
        }
        if !self.follows(LINE) {
            return Err(Refusal::Form);
        }
        self.at = LINE.len();
        Ok(true)
    }

    /// Whether the bytes to be read begin so.
    fn follows<const LEN: usize>(&self, key: &[u8; LEN]) -> bool {
        self.bytes[self.at..].first_chunk() == Some(key)
    }

    fn size<const LEN: usize>(&mut self, key: &[u8; LEN]) -> Result<usize, Refusal> {
        let mut size = [ABSENT];
        self.items(key, &mut size)?;
        match size {
            [ABSENT] => Err(Refusal::Form),
            [size @ 1..=6] => Ok(size as usize),
            _ => Err(Refusal::Size),
        }
    }

    /// So many entries in each row.
    fn rows<const LEN: usize>(
        &mut self,
        key: &[u8; LEN],
        rows: &mut [Line],
        count: usize,
    ) -> Result<(), Refusal> {
        rows.iter_mut()
            .try_for_each(|row| self.entries(key, &mut row[..count]))
    }

    /// A line of due marks or last moments, none of them absent.
    fn present<const LEN: usize>(
        &mut self,
        key: &[u8; LEN],
        marks: &mut [Entry],
    ) -> Result<(), Refusal> {
        self.entries(key, marks)?;
        if marks.contains(&ABSENT) {
            return Err(Refusal::NoMark);
        }
        Ok(())
    }

    /// A line's range is looked at when its form is known to be good.
    fn entries<const LEN: usize>(
        &mut self,
        key: &[u8; LEN],
        entries: &mut [Entry],
    ) -> Result<(), Refusal> {
        let most = self.items(key, entries)?;
        if most > LIMIT {
            return Err(Refusal::Range);
        }
        Ok(())
    }

    /// One line, its key, its items, LF, and the largest magnitude of its numbers.
    fn items<const LEN: usize>(
        &mut self,
        key: &[u8; LEN],
        items: &mut [Entry],
    ) -> Result<Entry, Refusal> {
        if !self.follows(key) {
            return Err(Refusal::Form);
        }
        let mut rest = &self.bytes[self.at + LEN..];
        let mut most = 0;
        let count = items.len();
        for (k, read) in items.iter_mut().enumerate() {
            let end = if k + 1 < count { b',' } else { b'\n' };
            let item = item(rest).ok_or(Refusal::Form)?;
            match rest.get(item.len..) {
                Some([byte, behind @ ..]) if *byte == end => rest = behind,
                _ => return Err(Refusal::Form),
            }
            *read = item.entry;
            most = most.max(item.size);
        }
        self.at = self.bytes.len() - rest.len();
        Ok(most)
    }
}
