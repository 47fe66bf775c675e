//! The parts of the climb: sheets as lines of items, what climbs begin with, how a sheet is changed, how long the
//! library takes, and the climbs themselves.

mod change;
mod climbs;
mod clock;
mod sheet;
mod starts;

pub use climbs::Climbs;
pub use clock::{Clock, Measured};
pub use starts::Starts;
