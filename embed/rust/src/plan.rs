//! What planning gives: five numbers, and the lines in the lent space.

use crate::list::{Line, List, has};
use std::fmt;

/// A plan. Its lines stand in the space that was lent, which stays borrowed as long as the plan is used.
///
/// Written by `{}`, it is the text that the program `plan` writes.
#[derive(Clone, Copy, Debug, PartialEq, Eq)]
pub struct Plan<'a> {
    /// Δ, the least deviation that any times that keep the order can have.
    pub deviation: i64,
    /// The walk's fixings.
    pub steps: u64,
    /// The walk's selections.
    pub selections: u64,
    /// The number of lines, at least 1.
    pub count: usize,
    /// The spare triggers, bit 0 for trigger 1.
    pub spares: u8,
    pub(crate) list: List<'a>,
}

impl<'a> Plan<'a> {
    /// The lines, in their order.
    pub fn lines(&self) -> impl ExactSizeIterator<Item = Line> + DoubleEndedIterator + use<'a> {
        self.list.lines(self.spares)
    }

    /// The sheet's number of triggers, spare ones too.
    pub fn triggers(&self) -> usize {
        self.list.triggers()
    }

    /// Adds a weight to each line and takes the largest, component by component. Whatever the weights,
    /// these times are tightest, and all tightest times are made so, but for those of spare triggers: they
    /// are 0 here, and any other would do. On a sheet with a last line they are in time exactly when no
    /// weight is greater than its line's [cap](Line::cap).
    ///
    /// `None` if there are not as many weights as lines, or if a time has no 64-bit form. [`test`](crate::test)
    /// takes times up to ±1,000,000,000.
    pub fn times(&self, weights: &[i64]) -> Option<Vec<i64>> {
        if weights.len() != self.count {
            return None;
        }
        let mut times: Vec<Option<i64>> = (0..self.triggers())
            .map(|j| has(self.spares, j).then_some(0))
            .collect();
        for (line, weight) in self.lines().zip(weights) {
            for (time, component) in times.iter_mut().zip(line.components()) {
                if let Some(component) = component {
                    // An absent time, `None`, is below every number.
                    *time = (*time).max(Some(weight.checked_add(i64::from(*component))?));
                }
            }
        }
        times.into_iter().collect()
    }
}

impl fmt::Display for Plan<'_> {
    fn fmt(&self, f: &mut fmt::Formatter<'_>) -> fmt::Result {
        writeln!(f, "deviation={}", self.deviation)?;
        writeln!(f, "steps={}", self.steps)?;
        writeln!(f, "selections={}", self.selections)?;
        writeln!(f, "count={}", self.count)?;
        for line in self.lines() {
            writeln!(f, "line={line}")?;
            if let Some(cap) = line.cap() {
                writeln!(f, "cap={cap}")?;
            }
        }
        Ok(())
    }
}
