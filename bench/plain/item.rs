//! The items of a sheet's lines.

use super::entry::{ABSENT, Entry};

/// Entries lie from −LIMIT to LIMIT.
pub const LIMIT: Entry = 100_000;
/// As many digits as the limit has; a number with more is beyond it.
const DIGITS: usize = 6;

/// An entry, its magnitude, 0 where it is absent, and how many bytes it takes. A number beyond the limit is read as
/// some number beyond.
pub struct Item {
    pub entry: Entry,
    pub size: Entry,
    pub len: usize,
}

const NO_NUMBER: Item = Item {
    entry: ABSENT,
    size: 0,
    len: 1,
};

impl Item {
    fn number(negative: bool, size: Entry, len: usize) -> Item {
        let entry = if negative { -size } else { size };
        Item { entry, size, len }
    }
}

/// The item at the front of some bytes, if there is one.
#[inline(always)]
pub fn item(bytes: &[u8]) -> Option<Item> {
    let short = bytes.first_chunk().and_then(short_item);
    short.or_else(|| any_item(bytes))
}

/// An item of not too many digits, read at once; none where something else has to be looked at.
#[inline(always)]
fn short_item(bytes: &[u8; 8]) -> Option<Item> {
    const EACH: u64 = 0x0101_0101_0101_0101;
    let bytes = u64::from_le_bytes(*bytes);
    let minus = usize::from(bytes as u8 == b'-');
    // A digit's byte becomes its value, and is the only one that 6 more leaves below 16.
    let values = bytes >> (8 * minus) ^ EACH * u64::from(b'0');
    let others = (values | values.wrapping_add(EACH * 6)) & EACH * 0xF0;
    let len = others.trailing_zeros() as usize / 8;
    if len == 0 {
        return (minus == 1).then_some(NO_NUMBER);
    }
    if len > DIGITS || values as u8 == 0 && minus + len > 1 {
        return None;
    }
    let size = number(values << (64 - 8 * len));
    Some(Item::number(minus == 1, size, minus + len))
}

/// The number of eight digits, the first in the lowest byte: first pairs of them, then all.
fn number(digits: u64) -> Entry {
    const LOW: u64 = 0x0000_00FF_0000_00FF;
    let pairs = digits * 10 + (digits >> 8);
    let upper = (pairs & LOW).wrapping_mul(100 + (1_000_000 << 32));
    let lower = (pairs >> 16 & LOW).wrapping_mul(1 + (10_000 << 32));
    (upper.wrapping_add(lower) >> 32) as Entry
}

/// Any item, byte by byte.
#[inline(never)]
fn any_item(bytes: &[u8]) -> Option<Item> {
    let minus = usize::from(bytes.first() == Some(&b'-'));
    let numeral = &bytes[minus..];
    let len = numeral
        .iter()
        .take_while(|byte| byte.is_ascii_digit())
        .count();
    match numeral[..len] {
        [] if minus == 1 => Some(NO_NUMBER),
        [b'0'] if minus == 0 => Some(Item::number(false, 0, 1)),
        [] | [b'0', ..] => None,
        ref digits => {
            let first = digits.iter().take(DIGITS + 1);
            let size = first.fold(0, |size, digit| size * 10 + Entry::from(digit - b'0'));
            Some(Item::number(minus == 1, size, minus + len))
        }
    }
}
