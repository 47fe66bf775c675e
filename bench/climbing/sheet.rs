//! A sheet as lines of items, any of which can be changed.

use std::fmt::{Display, Formatter, Result};

/// The number of triggers of every sheet here, and the most panels.
pub const MOST: usize = 6;
/// Numbers are no further from 0, by document 01.
pub const LIMIT: i32 = 100_000;

/// Keys of the lines, in a sheet's order.
pub const LAG: &str = "lag";
pub const FLOOR: &str = "floor";
pub const DUE: &str = "due";
pub const AFTER: &str = "after";
pub const LAND: &str = "land";
pub const LAST: &str = "last";
const KEYS: [&str; 6] = [LAG, FLOOR, DUE, AFTER, LAND, LAST];

const RULE: &str = "rule=2\n";

/// A number, or nothing where it is absent.
pub type Item = Option<i32>;

#[derive(Clone)]
pub struct Line {
    pub key: &'static str,
    pub items: Vec<Item>,
}

#[derive(Clone)]
pub struct Sheet {
    /// Whether it begins with rule 2.
    pub by_spread: bool,
    pub panels: usize,
    /// All lines but the rule's and the sizes'.
    pub lines: Vec<Line>,
}

impl Sheet {
    /// The sheet of a text with six triggers. Whether it is a good one the library says.
    pub fn read(text: &str) -> Option<Sheet> {
        let behind_rule = text.strip_prefix(RULE);
        let mut lines = behind_rule.unwrap_or(text).lines();
        let panels = lines.next()?.strip_prefix("panels=")?.parse().ok()?;
        let triggers: usize = lines.next()?.strip_prefix("triggers=")?.parse().ok()?;
        let lines = lines.map(Line::read).collect::<Option<_>>()?;
        (triggers == MOST).then_some(Sheet {
            by_spread: behind_rule.is_some(),
            panels,
            lines,
        })
    }

    /// Exchanges two rows of a table, if the sheet has it.
    pub fn swap_rows(&mut self, key: &str, [one, other]: [usize; 2]) {
        if let Some(first) = self.lines.iter().position(|line| line.key == key) {
            self.lines.swap(first + one, first + other);
        }
    }

    /// Exchanges two columns of a table, if the sheet has it.
    pub fn swap_columns(&mut self, key: &str, [one, other]: [usize; 2]) {
        let lines = self.lines.iter_mut().filter(|line| line.key == key);
        lines.for_each(|line| line.items.swap(one, other));
    }
}

impl Line {
    fn read(line: &str) -> Option<Line> {
        let (key, items) = line.split_once('=')?;
        let item = |item: &str| match item {
            "-" => Some(None),
            number => number.parse().ok().map(Some),
        };
        Some(Line {
            key: KEYS.into_iter().find(|known| *known == key)?,
            items: items.split(',').map(item).collect::<Option<_>>()?,
        })
    }
}

impl Display for Sheet {
    fn fmt(&self, text: &mut Formatter) -> Result {
        let rule = if self.by_spread { RULE } else { "" };
        write!(text, "{rule}panels={}\ntriggers={MOST}\n", self.panels)?;
        self.lines.iter().try_for_each(|line| line.fmt(text))
    }
}

impl Display for Line {
    fn fmt(&self, text: &mut Formatter) -> Result {
        text.write_str(self.key)?;
        let mut before = '=';
        for item in &self.items {
            match item {
                Some(number) => write!(text, "{before}{number}")?,
                None => write!(text, "{before}-")?,
            }
            before = ',';
        }
        text.write_str("\n")
    }
}
