//! What climbs begin with: random sheets of six by six, and the stored sheets with six triggers.

use super::change::within;
use super::sheet::{AFTER, DUE, FLOOR, Item, LAG, LAND, LIMIT, Line, MOST, Sheet};
use crate::random::Random;
use std::path::{Path, PathBuf};

/// One start in so many is a stored sheet.
const STORED: usize = 4;

pub struct Starts {
    stored: Vec<Sheet>,
}

impl Starts {
    /// The stored sheets with six triggers, in the order of their names.
    pub fn of_folder(folder: &Path) -> std::io::Result<Starts> {
        let files = std::fs::read_dir(folder)?.map(|file| file.map(|file| file.path()));
        let mut paths = files.collect::<std::io::Result<Vec<PathBuf>>>()?;
        paths.sort();
        let mut stored = Vec::new();
        for path in paths {
            let bytes = std::fs::read(path)?;
            stored.extend(Sheet::read(&String::from_utf8_lossy(&bytes)));
        }
        Ok(Starts { stored })
    }

    /// A stored sheet or a random one; the library may refuse either.
    pub fn some(&self, random: &mut Random) -> Sheet {
        if random.below(STORED) == 0 && !self.stored.is_empty() {
            return random.pick(&self.stored).clone();
        }
        random_sheet(random)
    }
}

/// What the items of a table are drawn from.
struct Kind {
    /// The greatest distance from `middle`; a small one makes ties.
    span: usize,
    middle: i32,
    /// Present items in a hundred.
    present: usize,
}

impl Kind {
    fn item(&self, random: &mut Random) -> Item {
        let number = self.middle + within(self.span, random);
        (random.below(100) < self.present).then_some(number.clamp(-LIMIT, LIMIT))
    }

    fn lines(&self, key: &'static str, count: usize, random: &mut Random) -> Vec<Line> {
        let mut line = || Line {
            key,
            items: (0..MOST).map(|_| self.item(random)).collect(),
        };
        (0..count).map(|_| line()).collect()
    }
}

/// Six by six: with many ties or few, with all lags or not, with marks or rule 2, with or without after rules and land
/// lines. Rules are below 0, most of them so far that they can be kept.
fn random_sheet(random: &mut Random) -> Sheet {
    let span = *random.pick(&[2, 5, 15, 50, 300, 3000, 30_000]);
    let table = |middle, present| Kind {
        span,
        middle,
        present,
    };
    let below = -(span as i32) * *random.pick(&[1, 2]);
    let lags = table(0, *random.pick(&[100, 100, 90, 70]));
    let floors = table(0, *random.pick(&[100, 100, 100, 80]));
    let after = table(below, *random.pick(&[0, 0, 20, 50, 100]));
    let land = table(2 * below, *random.pick(&[10, 30]));
    let by_spread = random.below(5) == 0;
    let mut lines = lags.lines(LAG, MOST, random);
    if !by_spread {
        lines.extend(floors.lines(FLOOR, 1, random));
        lines.extend(table(0, 100).lines(DUE, 1, random));
    }
    lines.extend(after.lines(AFTER, MOST, random));
    if random.below(5) == 0 {
        lines.extend(land.lines(LAND, MOST, random));
    }
    Sheet {
        by_spread,
        panels: MOST,
        lines,
    }
}
