//! The sheets of request 6, each from the state that the one before returned, from state 1 on: the load that
//! is planned. The library makes them, and plain Rust must make the same.

use crate::hire;
use crate::plain::MOST;
use crate::random::Random;
use crate::sides::{HIRED_BYTES, LARGEST, hired_by_library};
use std::iter::{once, successors};

const FIRST_STATE: u32 = 1;
/// Sheets of each size that both must make.
const AGREED: usize = 1000;

/// A sheet and the next state, from the numbers of panels and triggers and a state.
type Generator = fn([usize; 2], u32) -> (Vec<u8>, u32);

/// `count` sheets of six by six.
pub fn chained(count: usize) -> Vec<Vec<u8>> {
    let sheets = chain(by_library, LARGEST).map(|(sheet, _)| sheet);
    sheets.take(count).collect()
}

/// The states from which these are made, in bytes.
pub fn states(count: usize) -> Vec<Vec<u8>> {
    let returned = chain(by_library, LARGEST).map(|(_, state)| state);
    let states = once(FIRST_STATE).chain(returned).take(count);
    states.map(|state| state.to_ne_bytes().into()).collect()
}

/// These sheets, each with further lines behind it.
pub fn chained_with(count: usize, further: fn(&str, &mut Random) -> String) -> Vec<Vec<u8>> {
    let mut random = Random { state: 1 };
    let mut sheets = chained(count);
    for sheet in &mut sheets {
        let lines = further(&String::from_utf8_lossy(sheet), &mut random);
        sheet.extend(lines.into_bytes());
    }
    sheets
}

/// The first sheet of some size that the two do not make alike, or with another next state.
pub fn difference() -> Option<String> {
    let sizes = (1..=MOST).flat_map(|m| (1..=MOST).map(move |n| [m, n]));
    let mut differences = sizes.filter_map(|size| {
        let generators: [Generator; 2] = [by_library, hire::sheet];
        let [library, plain] = generators.map(|generator| chain(generator, size).take(AGREED));
        let at = library.zip(plain).position(|(one, other)| one != other)?;
        let [m, n] = size;
        Some(format!("sheet {} of {m} by {n}", at + 1))
    });
    differences.next()
}

/// Endless, each with the state that it returned.
fn chain(generator: Generator, size: [usize; 2]) -> impl Iterator<Item = (Vec<u8>, u32)> {
    let first = generator(size, FIRST_STATE);
    successors(Some(first), move |(_, state)| Some(generator(size, *state)))
}

fn by_library(size: [usize; 2], state: u32) -> (Vec<u8>, u32) {
    let mut bytes = [0; HIRED_BYTES];
    let answer = hired_by_library(size, state, &mut bytes);
    assert_eq!(answer.code, 0, "no sheet of {size:?} from state {state}");
    let [length, next, ..] = answer.words;
    (bytes[..length as usize].to_vec(), next as u32)
}
