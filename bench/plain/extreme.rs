//! The test of a candidate that needs no other one: it is a line exactly when the closures of its
//! triggers have a trigger in common. A set is six bits in a byte.

use super::cue::{Cue, Level};
use super::entry::{Entry, Line, MOST, largest, minus, places, plus, present, sums};

/// In the place of a panel's set where the panel is not tight: no set of triggers holds it.
const NEVER: u8 = 64;

pub fn extreme(line: &Line, cue: &Cue) -> bool {
    let late = lateness(line, &cue.sheet.due);
    let most = largest(&late);
    let held: [u8; MOST] = std::array::from_fn(|k| places(&sums(&cue.star[k], line), line[k]));
    let front = joined(&held, places(&late, most));
    let mut tight = [NEVER; MOST];
    for (set, level) in tight.iter_mut().zip(cue.levels()) {
        *set = reaching(level, line, most);
    }
    let closures = line.iter().zip(held).filter(|&(&at, _)| present(at));
    closures.fold(63, |all, (_, held)| all & closed(held, &tight, front)) != 0
}

/// c(j) − q(j)
fn lateness(line: &Line, due: &Line) -> Line {
    std::array::from_fn(|j| minus(line[j], due[j]))
}

/// What is held by the triggers of a set.
fn joined(held: &[u8; MOST], set: u8) -> u8 {
    let members = held.iter().enumerate().filter(|&(k, _)| set >> k & 1 == 1);
    members.fold(0, |joined, (_, held)| joined | held)
}

/// The triggers that reach a panel's landing, if it lands just where Δ asks.
fn reaching(level: &Level, line: &Line, most: Entry) -> u8 {
    let times = sums(&level.lag, line);
    let lands = largest(&times);
    if plus(level.ask, most) == lands {
        places(&times, lands)
    } else {
        NEVER
    }
}

/// What one trigger holds, and the front too where some tight panel's triggers are all held.
fn closed(held: u8, tight: &[u8; MOST], front: u8) -> u8 {
    if tight.iter().any(|set| set & held == *set) {
        held | front
    } else {
        held
    }
}
