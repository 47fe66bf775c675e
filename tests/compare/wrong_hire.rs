//! Wrong programs that are wrong about making sheets.

use crate::generator::{self, Absence, STRIDE};
use crate::hire::hire_from;
use crate::itself::{self, REFERENCE};
use crate::reference::SIZE;
use crate::under_test::{Asked, Operations};

type Hire = fn(Asked, &mut [u8], &mut [i64]) -> u32;

/// Mistakes in what is drawn, and in what is returned and left.
pub const HIRING: [(&str, Operations); 10] = [
    ("a state that saturates", hiring(saturating)),
    ("the lower 16 bits", hiring(lower)),
    ("no draw for an item always absent", hiring(saved_always)),
    ("no draw for an item absent by 7", hiring(saved_by_7)),
    ("the remainder by 2,000", hiring(by_2000)),
    ("a state beside 13", hiring(state_beside_13)),
    ("13 before 12", hiring(thirteen_first)),
    ("bytes beside 13", hiring(bytes_beside_13)),
    ("a byte behind the text", hiring(byte_behind)),
    ("a size cut to a byte", hiring(cut_size)),
];

/// A program that draws by `RIGHT`: not wrong.
pub const DRAWN_RIGHT: Operations = hiring(|asked, bytes, answer| RIGHT.hire(asked, bytes, answer));

const fn hiring(hire: Hire) -> Operations {
    Operations { hire, ..REFERENCE }
}

/// How a program draws.
struct Drawing {
    next: fn(u32) -> u32,
    upper: fn(u32) -> u32,
    item: fn(Absence, u32) -> Option<i64>,
    /// Whether an item gives its draw back.
    saves: fn(Absence, Option<i64>) -> bool,
}

/// As the plain generator does; a wrong program differs in one place.
const RIGHT: Drawing = Drawing {
    next: generator::next,
    upper: generator::upper,
    item: generator::item,
    saves: |_, _| false,
};

impl Drawing {
    fn hire(&self, asked: Asked, bytes: &mut [u8], answer: &mut [i64]) -> u32 {
        hire_from(|size, state| self.sheet(size, state), asked, bytes, answer)
    }

    fn sheet(&self, size: [usize; 2], mut state: u32) -> (Vec<u8>, u32) {
        let text = generator::written(size, |absence| {
            let drawn = (self.next)(state);
            let item = (self.item)(absence, (self.upper)(drawn));
            if !(self.saves)(absence, item) {
                state = drawn;
            }
            item
        });
        (text.into_bytes(), state)
    }
}

fn saturating(asked: Asked, bytes: &mut [u8], answer: &mut [i64]) -> u32 {
    let next = |state: u32| state.saturating_add(STRIDE);
    Drawing { next, ..RIGHT }.hire(asked, bytes, answer)
}

fn lower(asked: Asked, bytes: &mut [u8], answer: &mut [i64]) -> u32 {
    let upper = |state| state & 0xffff;
    Drawing { upper, ..RIGHT }.hire(asked, bytes, answer)
}

fn saved_always(asked: Asked, bytes: &mut [u8], answer: &mut [i64]) -> u32 {
    let saves = |absence, _| absence == Absence::Always;
    Drawing { saves, ..RIGHT }.hire(asked, bytes, answer)
}

/// The next item is drawn from the same state again.
fn saved_by_7(asked: Asked, bytes: &mut [u8], answer: &mut [i64]) -> u32 {
    let saves = |absence, item: Option<i64>| absence == Absence::Possible && item.is_none();
    Drawing { saves, ..RIGHT }.hire(asked, bytes, answer)
}

fn by_2000(asked: Asked, bytes: &mut [u8], answer: &mut [i64]) -> u32 {
    let item = |absence, u| generator::item(absence, u).map(|_| i64::from(u % 2000) - 1000);
    Drawing { item, ..RIGHT }.hire(asked, bytes, answer)
}

fn state_beside_13(asked: Asked, bytes: &mut [u8], answer: &mut [i64]) -> u32 {
    let code = itself::hire(asked, bytes, answer);
    if let (13, Some(word)) = (code, answer.get_mut(1)) {
        *word = right(asked).1.into();
    }
    code
}

/// The text of the nearest sizes that are permitted does not fit.
fn thirteen_first(asked: Asked, bytes: &mut [u8], answer: &mut [i64]) -> u32 {
    let size = asked.size.map(|k| k.clamp(1, SIZE));
    if right(Asked { size, ..asked }).0.len() > bytes.len() {
        return 13;
    }
    itself::hire(asked, bytes, answer)
}

/// As much of the text as fits.
fn bytes_beside_13(asked: Asked, bytes: &mut [u8], answer: &mut [i64]) -> u32 {
    let code = itself::hire(asked, bytes, answer);
    if code == 13 {
        let fits = bytes.len();
        bytes.copy_from_slice(&right(asked).0[..fits]);
    }
    code
}

/// The text ends with a 0, where there is room.
fn byte_behind(asked: Asked, bytes: &mut [u8], answer: &mut [i64]) -> u32 {
    let code = itself::hire(asked, bytes, answer);
    if code == 0
        && let Some(byte) = bytes.get_mut(right(asked).0.len())
    {
        *byte = 0;
    }
    code
}

fn cut_size(asked: Asked, bytes: &mut [u8], answer: &mut [i64]) -> u32 {
    let size = asked.size.map(|k| k & 0xff);
    itself::hire(Asked { size, ..asked }, bytes, answer)
}

/// The text and the next state that are right for permitted sizes.
fn right(asked: Asked) -> (Vec<u8>, u32) {
    generator::sheet(asked.size, asked.state)
}
