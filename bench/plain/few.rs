//! A list of lines with a fixed room.

use super::entry::{Line, PLACES};
use std::ops::Deref;

/// Lines at the front of a fixed space.
#[derive(Clone, Copy)]
pub struct Few<const ROOM: usize> {
    pub len: usize,
    pub at: [Line; ROOM],
}

impl<const ROOM: usize> Few<ROOM> {
    pub fn none() -> Self {
        Few {
            len: 0,
            at: [[0; PLACES]; ROOM],
        }
    }
}

impl<const ROOM: usize> Deref for Few<ROOM> {
    type Target = [Line];

    fn deref(&self) -> &[Line] {
        &self.at[..self.len]
    }
}
