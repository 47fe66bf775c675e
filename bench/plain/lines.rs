//! Steps 6 and 7: from the bounds to the list in the lent space. A buffer gathers the lines in
//! order; where it is filled, the bounds are gone through again for the lines above its last one.

use super::NoPlan;
use super::bounds::each_bound;
use super::cue::Cue;
use super::entry::{Line, NO_LINE, join, largest, minus, row_product};
use super::extreme::extreme;
use super::few::Few;
use super::words::{line_words, write};

/// More lines than nearly every sheet has.
const ROOM: usize = 128;
type Buffer = Few<ROOM>;

/// Writes the list at the front of the space and gives its count, or the count that does not fit.
pub fn list(cue: &Cue, space: &mut [i32]) -> Result<usize, NoPlan> {
    let line_words = line_words(cue);
    let mut lines = gathered(cue, &NO_LINE);
    let count = if lines.len < ROOM {
        lines.len
    } else {
        counted(cue, lines)
    };
    if space.len() / line_words < count {
        return Err(NoPlan::NoRoom { count, line_words });
    }
    let mut written = write(cue, &lines, space);
    while lines.len == ROOM {
        lines = gathered(cue, &lines[ROOM - 1]);
        written += write(cue, &lines, &mut space[written * line_words..]);
    }
    Ok(written)
}

/// How many lines there are, of which the buffer holds the first.
fn counted(cue: &Cue, mut lines: Buffer) -> usize {
    let mut count = lines.len;
    while lines.len == ROOM {
        lines = gathered(cue, &lines[ROOM - 1]);
        count += lines.len;
    }
    count
}

/// The least lines above the last one, as many as there is room for.
fn gathered(cue: &Cue, last: &Line) -> Buffer {
    let mut lines = Buffer::none();
    each_bound(cue, |bound| {
        let starred = row_product(bound, &cue.columns);
        for t in cue.in_use() {
            let line = candidate(cue, &starred, t);
            if line > *last {
                consider(&mut lines, &line, cue);
            }
        }
    });
    lines
}

/// The candidate of trigger t: column t of M*, joined with M* w − r(t), shifted so that the greatest
/// component is 0.
fn candidate(cue: &Cue, starred: &Line, t: usize) -> Line {
    let mark = cue.marks[t];
    let mut ray = starred.map(|at| minus(at, mark));
    join(&mut ray, &cue.columns[t]);
    let top = largest(&ray);
    ray.map(|at| minus(at, top))
}

/// Most candidates are there already, so a line is looked up before it is tested.
fn consider(lines: &mut Buffer, line: &Line, cue: &Cue) {
    if let Err(place) = lines.binary_search(line)
        && place < ROOM
        && extreme(line, cue)
    {
        put(lines, place, line);
    }
}

/// Puts a line in at its place; the last one falls out of a full buffer.
fn put(lines: &mut Buffer, place: usize, line: &Line) {
    let last = lines.len.min(ROOM - 1);
    lines.at.copy_within(place..last, place + 1);
    lines.at[place] = *line;
    lines.len = last + 1;
}
