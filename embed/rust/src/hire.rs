//! Sheets to try, which can be made again anywhere from their sizes and a state.

use crate::refusal::Refusal;
use crate::{DONE, ffi};

/// Bytes that are always enough for a sheet that is made: no good sheet has more.
pub const HIRE_BYTES: usize = 1133;

/// A sheet that was made. It stands in the bytes that were lent, which stay borrowed as long as it is used.
#[derive(Clone, Copy, Debug, PartialEq, Eq)]
pub struct Hired<'a> {
    /// The sheet.
    pub sheet: &'a [u8],
    /// The next state.
    pub state: u32,
}

/// Makes one sheet, with marks and without land or last lines, from its sizes and a state, and the next
/// state: the same wherever it is made. It is written at the front of the bytes; the rest of them stays as it
/// was. Every sheet so made is accepted and its order can be kept: [`plan`](crate::plan) with enough space
/// does not refuse it.
///
/// For a load of many sheets each is made from the state that the one before returned; states near one
/// another make nearly the same sheet or the same.
///
/// ```
/// let (mut state, mut bytes) = (1, [0; tuzhelar::HIRE_BYTES]);
/// for _ in 0..1000 {
///     let hired = tuzhelar::hire(6, 6, state, &mut bytes)?;
///     assert!(tuzhelar::kept(hired.sheet).is_ok());
///     state = hired.state;
/// }
/// # Ok::<(), tuzhelar::Refusal>(())
/// ```
///
/// # Errors
/// [`Refusal`] 12, a size is not 1 to 6; then 13, the sheet is longer than the bytes. They are then as they
/// were. [`HIRE_BYTES`] are always enough.
pub fn hire(
    panels: usize,
    triggers: usize,
    state: u32,
    bytes: &mut [u8],
) -> Result<Hired<'_>, Refusal> {
    let mut answer = [0; 2];
    let number = ffi::hire(panels, triggers, state, bytes, &mut answer);
    if number != DONE {
        return Err(Refusal::of(number, 0, 0));
    }
    let [length, state] = answer;
    Ok(Hired {
        sheet: &bytes[..length as usize],
        state: state as u32,
    })
}
