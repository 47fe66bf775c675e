//! Changes of a sheet, small and large. Some make a sheet that the library refuses; such a one is not kept.

use super::sheet::{AFTER, DUE, FLOOR, Item, LAG, LAND, LAST, LIMIT, Line, MOST, Sheet};
use crate::random::Random;

type Change = fn(&mut Sheet, &mut Random);

/// What is done to a sheet; what stands here more than once is done more often.
const CHANGES: [Change; 13] = [
    nudge,
    nudge,
    nudge,
    nudge,
    jump,
    remove,
    copy,
    copy,
    shift_line,
    exchange_lines,
    exchange_columns,
    exchange_panels,
    exchange_triggers,
];
/// After each change there is another one in one case of so many.
const ANOTHER: usize = 3;
/// The farthest that a small change goes, and a big one from 0.
const STEPS: [usize; 6] = [1, 2, 5, 20, 100, 1000];
const SPANS: [usize; 5] = [10, 100, 1000, 10_000, LIMIT as usize];

/// The sheet with one change or several.
pub fn changed(sheet: &Sheet, random: &mut Random) -> Sheet {
    let mut sheet = sheet.clone();
    loop {
        random.pick(&CHANGES)(&mut sheet, random);
        if random.below(ANOTHER) != 0 {
            return sheet;
        }
    }
}

/// Any number from −span to span.
pub fn within(span: usize, random: &mut Random) -> i32 {
    random.below(2 * span + 1) as i32 - span as i32
}

/// Adds a small number to an item.
fn nudge(sheet: &mut Sheet, random: &mut Random) {
    let step = some_step(random);
    add(some_item(sheet, random), step);
}

/// Puts any number in the place of an item.
fn jump(sheet: &mut Sheet, random: &mut Random) {
    let span = *random.pick(&SPANS);
    let number = within(span, random);
    *some_item(sheet, random) = Some(number);
}

fn remove(sheet: &mut Sheet, random: &mut Random) {
    *some_item(sheet, random) = None;
}

/// Puts another item of the same table in the place of one.
fn copy(sheet: &mut Sheet, random: &mut Random) {
    let line = random.below(sheet.lines.len());
    let key = sheet.lines[line].key;
    let alike = sheet.lines.iter().filter(|line| line.key == key);
    let from: Vec<Item> = alike.flat_map(|line| &line.items).copied().collect();
    let item = *random.pick(&from);
    let items = &mut sheet.lines[line].items;
    let at = random.below(items.len());
    items[at] = item;
}

/// Adds the same small number to every item of a line.
fn shift_line(sheet: &mut Sheet, random: &mut Random) {
    let step = some_step(random);
    let line = some_line(sheet, random);
    line.items.iter_mut().for_each(|item| add(item, step));
}

/// Exchanges two rows of one table, and leaves the marks and rules of their panels or triggers.
fn exchange_lines(sheet: &mut Sheet, random: &mut Random) {
    let rows = [(LAG, sheet.panels), (AFTER, MOST), (LAND, MOST)];
    let (key, count) = *random.pick(&rows);
    sheet.swap_rows(key, two_below(count, random));
}

/// Exchanges two columns of one table, or two marks.
fn exchange_columns(sheet: &mut Sheet, random: &mut Random) {
    let columns = [
        (LAG, MOST),
        (FLOOR, sheet.panels),
        (DUE, MOST),
        (AFTER, MOST),
        (LAND, sheet.panels),
        (LAST, sheet.panels),
    ];
    let (key, count) = *random.pick(&columns);
    sheet.swap_columns(key, two_below(count, random));
}

/// Exchanges two panels, with all that belongs to them.
fn exchange_panels(sheet: &mut Sheet, random: &mut Random) {
    let two = two_below(sheet.panels, random);
    sheet.swap_rows(LAG, two);
    for key in [FLOOR, LAND, LAST] {
        sheet.swap_columns(key, two);
    }
}

/// Exchanges two triggers, with all that belongs to them.
fn exchange_triggers(sheet: &mut Sheet, random: &mut Random) {
    let two = two_below(MOST, random);
    for key in [AFTER, LAND] {
        sheet.swap_rows(key, two);
    }
    for key in [LAG, DUE, AFTER] {
        sheet.swap_columns(key, two);
    }
}

fn two_below(bound: usize, random: &mut Random) -> [usize; 2] {
    [random.below(bound), random.below(bound)]
}

/// A small number, above or below 0.
fn some_step(random: &mut Random) -> i32 {
    let most = *random.pick(&STEPS);
    let step = 1 + random.below(most) as i32;
    *random.pick(&[step, -step])
}

fn some_line<'a>(sheet: &'a mut Sheet, random: &mut Random) -> &'a mut Line {
    let at = random.below(sheet.lines.len());
    &mut sheet.lines[at]
}

fn some_item<'a>(sheet: &'a mut Sheet, random: &mut Random) -> &'a mut Item {
    let items = &mut some_line(sheet, random).items;
    let at = random.below(items.len());
    &mut items[at]
}

/// An absent item stays absent; no number leaves the limit.
fn add(item: &mut Item, step: i32) {
    if let Some(number) = item {
        *number = (*number + step).clamp(-LIMIT, LIMIT);
    }
}
