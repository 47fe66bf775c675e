//! Entries that may be absent, lines and tables of them, sums and largest values.

/// A whole number, or an absent one. No number of document 01's steps leaves 28 bits.
pub type Entry = i32;

/// Far below every number: what numbers are added to it, the sum is below `LEAST`.
pub const ABSENT: Entry = -(1 << 30);
/// Below every number.
pub const LEAST: Entry = -(1 << 29);

/// The most panels, and the most triggers.
pub const MOST: usize = 6;
/// The places of a line: two more, as all are added or compared at once.
pub const PLACES: usize = 8;

/// A row or a vector; places past the last are absent, so that loops need not know the sizes.
pub type Line = [Entry; PLACES];
pub type Table = [Line; MOST];

pub const NO_LINE: Line = [ABSENT; PLACES];

pub fn present(entry: Entry) -> bool {
    entry > LEAST
}

pub fn plus(a: Entry, b: Entry) -> Entry {
    settled(a + b)
}

/// The difference, absent where one of them is.
pub fn minus(a: Entry, b: Entry) -> Entry {
    if present(b) { settled(a - b) } else { ABSENT }
}

/// A sum that may have been made with absent entries.
fn settled(sum: Entry) -> Entry {
    if present(sum) { sum } else { ABSENT }
}

pub fn largest(line: &Line) -> Entry {
    line.iter().copied().fold(ABSENT, Entry::max)
}

/// The sums place by place.
pub fn sums(a: &Line, b: &Line) -> Line {
    std::array::from_fn(|j| plus(a[j], b[j]))
}

/// The places with an entry, as bits, bit 0 for the first.
pub fn places(line: &Line, entry: Entry) -> u8 {
    let bits = line[..MOST].iter().rev();
    bits.fold(0, |set, &at| set << 1 | u8::from(at == entry))
}

/// A row times a table, row by row of the table, so that an absent entry costs one look.
pub fn row_product(row: &Line, table: &Table) -> Line {
    let mut product = NO_LINE;
    for (&entry, other) in row.iter().zip(table) {
        if present(entry) {
            raise(&mut product, other, entry);
        }
    }
    product.map(settled)
}

/// Raises each place to at least that of the other line plus a number. Absent entries may come out a number off:
/// they are to be settled.
pub fn raise(line: &mut Line, other: &Line, by: Entry) {
    for (at, &least) in line.iter_mut().zip(other) {
        *at = (*at).max(least + by);
    }
}

/// Raises each place to at least that of the other line.
pub fn join(line: &mut Line, other: &Line) {
    raise(line, other, 0);
}

pub fn settle(line: &mut Line) {
    *line = line.map(settled);
}

/// Whether no place of a line is above that of the other; all are looked at, which is done at once.
pub fn nowhere_above(a: &Line, b: &Line) -> bool {
    let above = a.iter().zip(b).fold(false, |any, (a, b)| any | (a > b));
    !above
}
