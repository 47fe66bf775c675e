//! The latest times that are tightest, in time and no later than given ones.

use crate::list::{Line, List};
use crate::refusal::Refusal;
use crate::{DONE, MOST, ffi};

/// The latest times that are tightest, in time and no later than given ones. The sheet's lines stand in the
/// space that was lent, which stays borrowed as long as this is used.
#[derive(Clone, Copy, Debug, PartialEq, Eq)]
pub struct Latest<'a> {
    /// The times, 0 past the sheet's number of triggers.
    times: [i64; MOST],
    list: List<'a>,
}

impl<'a> Latest<'a> {
    /// The times, one for each trigger. Where the given times are tightest and in time themselves, these are
    /// they; a spare trigger's is always the one given. Given times near −1,000,000,000 can come out below
    /// it, where [`test`](crate::test) takes none.
    pub fn times(&self) -> &[i64] {
        &self.times[..self.triggers()]
    }

    /// The lines, in their order, as [`plan`](crate::plan) has them.
    pub fn lines(&self) -> impl ExactSizeIterator<Item = Line> + DoubleEndedIterator + use<'a> {
        self.list.lines(self.list.spares())
    }

    /// The sheet's number of triggers, spare ones too.
    pub fn triggers(&self) -> usize {
        self.list.triggers()
    }
}

/// The tightest times none of which exceeds the given one in its place, none of which makes a panel land
/// after its last moment, and which are at least as late, time by time, as all others of which that is so.
/// There always are some. The sheet's lines are written at the front of the space, as
/// [`plan`](crate::plan) writes them; the rest of the space stays as it was.
///
/// # Errors
/// [`Refusal`] 1 to 7 or 14; then 10, there are not as many times as triggers; then 11, one is beyond
/// ±1,000,000,000; then 8; then 9, for which [`Refusal::Space`] says how many lines there are. The space is
/// then as it was.
pub fn latest<'a>(
    sheet: &[u8],
    times: &[i64],
    space: &'a mut [i32],
) -> Result<Latest<'a>, Refusal> {
    let mut answer = [0; 1 + MOST + 1];
    let number = ffi::latest(sheet, times, space, &mut answer);
    let [count, times @ .., line_words] = answer;
    let (count, line_words) = (count as usize, line_words as usize);
    if number != DONE {
        return Err(Refusal::of(number, count, line_words));
    }
    Ok(Latest {
        times,
        list: List::in_space(space, count, line_words),
    })
}
