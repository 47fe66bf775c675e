//! The generator of document 02's No. 6, "A load the hire shop can repeat", in plain Rust: a second reading
//! of the document, beside the library's.

use std::fmt::Write;
use std::iter::{once, repeat_n};

/// "A draw adds 2,654,435,769 to s"
pub const STRIDE: u32 = 2_654_435_769;

/// Whether a drawn item may be, must not be, or always is absent.
#[derive(Clone, Copy, PartialEq, Eq)]
pub enum Absence {
    Possible,
    Never,
    Always,
}
use Absence::{Always, Never, Possible};

/// The sheet of m panels and n triggers, each 1 to 6, that a state makes, and the next state.
pub fn sheet(size: [usize; 2], mut state: u32) -> (Vec<u8>, u32) {
    // A draw is spent on every item, on those that are always absent too.
    let text = written(size, |absence| {
        state = next(state);
        item(absence, upper(state))
    });
    (text.into_bytes(), state)
}

/// "discarding what exceeds 32 bits"
pub fn next(state: u32) -> u32 {
    state.wrapping_add(STRIDE)
}

/// "then takes u, the upper 16 bits"
pub fn upper(state: u32) -> u32 {
    state >> 16
}

/// "absent if u leaves remainder 0 by 7, otherwise it is the remainder of u by 2,001, less 1,000", but for
/// the items that never or always are absent.
pub fn item(absence: Absence, u: u32) -> Option<i64> {
    let present = match absence {
        Possible => u % 7 != 0,
        Never => true,
        Always => false,
    };
    present.then_some(i64::from(u % 2001) - 1000)
}

/// A sheet's text; its items are asked for in sheet order.
pub fn written([m, n]: [usize; 2], mut item: impl FnMut(Absence) -> Option<i64>) -> String {
    let first_present = |count| once(Never).chain(repeat_n(Possible, count - 1));
    let mut text = format!("panels={m}\ntriggers={n}\n");
    for _ in 0..m {
        push_line(&mut text, "lag", first_present(n).map(&mut item));
    }
    push_line(&mut text, "floor", first_present(m).map(&mut item));
    push_line(&mut text, "due", repeat_n(Never, n).map(&mut item));
    for i in 0..n {
        let below = repeat_n(Possible, i);
        let row = below.chain(repeat_n(Always, n - i));
        push_line(&mut text, "after", row.map(&mut item));
    }
    text
}

fn push_line(text: &mut String, key: &str, items: impl Iterator<Item = Option<i64>>) {
    let mut before = '=';
    text.push_str(key);
    for item in items {
        text.push(before);
        match item {
            None => text.push('-'),
            Some(number) => write!(text, "{number}").expect("a string takes every text"),
        }
        before = ',';
    }
    text.push('\n');
}
