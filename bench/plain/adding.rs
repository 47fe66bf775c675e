//! Steps 6 and 7 by adding one panel with a floor after the other, for each trigger t by itself. Of the timings that
//! keep the order, have no trigger behind its due mark and t on its new one, and land on each panel so far at p(i) − Δ
//! or later, those are held that no other is nowhere above: first column t of M*. What meets a new panel stays. What
//! does not is joined with the column of each kept trigger, this one just so late that the panel lands as asked; the
//! least joints stay. With all panels these are the lines, shifted: a line is extreme exactly when it is least for some
//! trigger, so that nothing has to be tested.

use super::NoPlan;
use super::cue::{Cue, Level};
use super::entry::{ABSENT, Entry, LEAST, Line, PLACES, Table, largest, nowhere_above, present};
use super::lines;
use super::words::{line_words, write};
use std::ops::Range;

/// Room that is enough for most sheets, and for all that are known.
const SOME: usize = 32;
const MANY: usize = 256;

/// Writes the list at the front of the space and gives its count, or the count that does not fit.
pub fn list(cue: &Cue, space: &mut [i32]) -> Result<usize, NoPlan> {
    let mut some = Held::<SOME>::none();
    let Some(t) = some.draw_from(cue, 0) else {
        return some.write(cue, space);
    };
    let mut many = Held::<MANY>::none();
    many.at[..some.len].copy_from_slice(&some.at[..some.len]);
    many.len = some.len;
    match many.draw_from(cue, t) {
        None => many.write(cue, space),
        Some(_) => lines::list(cue, space),
    }
}

/// Timings at the front of a fixed room. An absent component is `LEAST`, as no sum with an absent entry is above it.
struct Held<const ROOM: usize> {
    at: [Line; ROOM],
    len: usize,
}

impl<const ROOM: usize> Held<ROOM> {
    fn none() -> Self {
        Held {
            at: [[0; PLACES]; ROOM],
            len: 0,
        }
    }

    /// Draws the lines of the triggers from one on, and gives the first for which there is no room.
    fn draw_from(&mut self, cue: &Cue, from: usize) -> Option<usize> {
        for t in cue.in_use().filter(|&t| t >= from) {
            let first = self.len;
            if self.draw(cue, t, first).is_none() {
                self.len = first;
                return Some(t);
            }
        }
        None
    }

    /// Draws the lines of one trigger behind the first ones, if there is room.
    fn draw(&mut self, cue: &Cue, t: usize, first: usize) -> Option<()> {
        *self.at.get_mut(first)? = cue.columns[t].map(|at| (at + cue.marks[t]).max(LEAST));
        self.len += 1;
        for level in cue.levels() {
            self.add(level, &cue.columns, first)?;
        }
        self.leave_out_repeats(cue, t, first);
        Some(())
    }

    /// Adds a panel, if there is room. A kept trigger that reaches it later through another one is not needed: the
    /// other one's column is nowhere above.
    fn add(&mut self, level: &Level, columns: &Table, first: usize) -> Option<()> {
        let met = self.part(level, first);
        if met == self.len {
            return Some(());
        }
        let mut end = self.len;
        for k in met..self.len {
            let mut untried = level.kept;
            while untried != 0 {
                let s = untried.trailing_zeros() as usize;
                if level.lag[s] + level.needs[s] == level.ask {
                    let joint = joined(&self.at[k], &columns[s], level.needs[s]);
                    end = self.take_in(&joint, first..met, end)?;
                }
                untried &= untried - 1;
            }
        }
        self.at.copy_within(self.len..end, met);
        self.len = met + (end - self.len);
        Some(())
    }

    /// Brings those that meet a panel to the front and gives their end.
    fn part(&mut self, level: &Level, first: usize) -> usize {
        let mut met = first;
        for k in first..self.len {
            if meets(level, &self.at[k]) {
                self.at.swap(k, met);
                met += 1;
            }
        }
        met
    }

    /// Takes a joint in among the others, which end there, unless one of them or of those that stay is nowhere above
    /// it; those nowhere below it leave. Gives the new end, if there is room.
    fn take_in(&mut self, joint: &Line, stay: Range<usize>, end: usize) -> Option<usize> {
        let under = |other: &Line| nowhere_above(other, joint);
        if self.at[stay].iter().any(under) || self.at[self.len..end].iter().any(under) {
            return Some(end);
        }
        let mut left = self.len;
        for k in self.len..end {
            let other = self.at[k];
            if !nowhere_above(joint, &other) {
                self.at[left] = other;
                left += 1;
            }
        }
        *self.at.get_mut(left)? = *joint;
        Some(left + 1)
    }

    /// Leaves out the lines of a trigger that are there for an earlier one, which then is on its new due mark as well.
    fn leave_out_repeats(&mut self, cue: &Cue, t: usize, first: usize) {
        let mut left = first;
        for k in first..self.len {
            let line = self.at[k];
            let mut earlier = line.iter().zip(&cue.marks).take(t);
            if !(earlier.any(|(at, mark)| at == mark) && self.at[..first].contains(&line)) {
                self.at[left] = line;
                left += 1;
            }
        }
        self.len = left;
    }

    fn write(&mut self, cue: &Cue, space: &mut [i32]) -> Result<usize, NoPlan> {
        let (count, line_words) = (self.len, line_words(cue));
        if space.len() / line_words < count {
            return Err(NoPlan::NoRoom { count, line_words });
        }
        let lines = &mut self.at[..count];
        lines.iter_mut().for_each(|line| *line = shifted(line));
        lines.sort_unstable();
        Ok(write(cue, lines, space))
    }
}

/// Whether a panel lands as asked.
fn meets(level: &Level, line: &Line) -> bool {
    let times = level.lag.iter().zip(line);
    times.fold(false, |any, (lag, at)| any | (lag + at >= level.ask))
}

fn joined(line: &Line, column: &Line, by: Entry) -> Line {
    std::array::from_fn(|j| line[j].max(column[j] + by))
}

/// The line whose greatest component is 0.
fn shifted(line: &Line) -> Line {
    let top = largest(line);
    line.map(|at| if present(at) { at - top } else { ABSENT })
}
