//! The kept table: steps 1 to 4, with the numbers of step 5's walk.

use super::cue::{Cue, Level};
use super::entry::{Line, MOST, present};
use super::sheet::Refusal;
use super::walk;

pub struct KeptTable {
    pub deviation: i32,
    pub steps: u32,
    pub selections: u32,
    pub panels: usize,
    /// Each panel's kept triggers, bit 0 for trigger 1: none without a floor and past the last panel.
    pub kept: [u8; MOST],
    /// How many they are.
    pub counts: [u32; MOST],
}

pub fn kept_table(bytes: &[u8]) -> Result<KeptTable, Refusal> {
    let mut cue = Cue::NONE;
    cue.prepare(bytes)?;
    let counts = walk::count(cue.levels());
    let kept = by_panel(cue.levels(), &cue.sheet.floor);
    Ok(KeptTable {
        deviation: cue.deviation,
        steps: counts.steps,
        selections: counts.selections,
        panels: cue.sheet.panels,
        kept,
        counts: kept.map(u8::count_ones),
    })
}

/// The kept triggers of the levels, each at the place of its panel.
fn by_panel(levels: &[Level], floor: &Line) -> [u8; MOST] {
    let mut kept = [0; MOST];
    let panels = kept.iter_mut().zip(floor);
    let floored = panels.filter(|&(_, &floor)| present(floor));
    for ((kept, _), level) in floored.zip(levels) {
        *kept = level.kept;
    }
    kept
}
