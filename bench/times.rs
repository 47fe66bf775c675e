//! Times of all sides, taken in turns.

use crate::classes::Class;
use crate::sides::{SIDES, SPACE, Work, works};
use std::hint::black_box;
use std::time::{Duration, Instant};

/// Rounds of each side.
pub const ROUNDS: usize = 61;
/// A round plans the class's sheets over and over for at least so long.
pub const ROUND: Duration = Duration::from_millis(5);

/// Depths of the stack at which rounds are taken: together they pass through a page of memory.
const DEPTHS: usize = 16;
/// Bytes of a depth, beside what a call takes.
const FRAME: usize = 200;

/// Times of each side in seconds, the library's first.
pub struct Times {
    /// The median round, for one pass over the class's sheets.
    pub median: Vec<f64>,
    /// The lower quartile, which other work on the machine disturbs less.
    pub quartile: Vec<f64>,
    /// The sheet that takes longest by itself.
    pub longest: Vec<f64>,
}

impl Times {
    pub fn new(mut rounds: Vec<Vec<f64>>, longest: Vec<f64>) -> Times {
        let mut at = |part| rounds.iter_mut().map(|side| nth(side, part)).collect();
        Times {
            median: at(2),
            quartile: at(4),
            longest,
        }
    }

    /// How many times as long as the faster plain Rust the library takes, by medians and by quartiles.
    pub fn ratios(&self) -> [f64; 2] {
        [&self.median, &self.quartile].map(|times| ratio(times))
    }
}

/// The library's number to the least of the others.
pub fn ratio(sides: &[f64]) -> f64 {
    let least = sides[1..].iter().copied().fold(f64::INFINITY, f64::min);
    sides[0] / least
}

/// The time at one in so many of them, by length.
fn nth(times: &mut [f64], part: usize) -> f64 {
    times.sort_by(f64::total_cmp);
    times[times.len() / part]
}

/// One side at work on a class.
struct Lane<'a> {
    work: Work,
    sheets: &'a [Vec<u8>],
    space: Vec<i32>,
    passes: u32,
    rounds: Vec<f64>,
    /// The times of each sheet by itself.
    single: Vec<Vec<f64>>,
}

impl<'a> Lane<'a> {
    /// Finds how many passes make a round, which warms the side up as well.
    fn new(work: Work, sheets: &'a [Vec<u8>]) -> Lane<'a> {
        let mut lane = Lane {
            work,
            sheets,
            space: vec![0; SPACE],
            passes: 1,
            rounds: Vec::new(),
            single: vec![Vec::with_capacity(ROUNDS); sheets.len()],
        };
        while lane.passed() < ROUND {
            lane.passes *= 2;
        }
        lane
    }

    fn plan(&mut self, sheet: &[u8]) {
        black_box((self.work)(black_box(sheet), &mut self.space));
    }

    /// The time of a round's passes.
    fn passed(&mut self) -> Duration {
        let start = processor_time();
        for _ in 0..self.passes {
            for sheet in self.sheets {
                self.plan(sheet);
            }
        }
        processor_time() - start
    }

    /// A round, each at another depth of the stack, and a pass with each plan timed by itself.
    fn round(&mut self) {
        let depth = self.rounds.len() % DEPTHS;
        let passed = deeper(depth, &mut || self.passed()).as_secs_f64();
        self.rounds.push(passed / f64::from(self.passes));
        for (k, sheet) in self.sheets.iter().enumerate() {
            let start = Instant::now();
            self.plan(sheet);
            self.single[k].push(start.elapsed().as_secs_f64());
        }
    }

    /// The greatest of the sheets' medians.
    fn longest(&mut self) -> f64 {
        let medians = self.single.iter_mut().map(|times| nth(times, 2));
        medians.fold(0.0, f64::max)
    }
}

/// The times of each class. A round of every class is taken before the next round of any, so that a
/// while in which the machine is slow is a small part of each.
pub fn side_by_side(classes: &[Class]) -> Vec<Times> {
    let mut all: Vec<Vec<Lane>> = classes.iter().map(lanes).collect();
    for round in 0..ROUNDS {
        for lanes in &mut all {
            in_turn(lanes, round, Lane::round);
        }
    }
    all.into_iter().map(times).collect()
}

/// The library's median round for each sheet by itself, planned over and over.
pub fn alone(sheets: &[Vec<u8>]) -> Vec<f64> {
    let [library, ..] = SIDES;
    let lanes = sheets.chunks(1).map(|sheet| Lane::new(library.plan, sheet));
    let mut lanes: Vec<Lane> = lanes.collect();
    for _ in 0..ROUNDS {
        lanes.iter_mut().for_each(Lane::round);
    }
    let medians = lanes.iter_mut().map(|lane| nth(&mut lane.rounds, 2));
    medians.collect()
}

fn lanes(class: &Class) -> Vec<Lane<'_>> {
    let works = works(class.task).into_iter();
    works.map(|work| Lane::new(work, &class.sheets)).collect()
}

fn times(mut lanes: Vec<Lane>) -> Times {
    let longest = lanes.iter_mut().map(Lane::longest).collect();
    Times::new(lanes.into_iter().map(|lane| lane.rounds).collect(), longest)
}

/// Acts some frames further down the stack: where a buffer on the stack happens to lie can make a side
/// a fifth slower, and over many depths this is even.
#[inline(never)]
fn deeper(frames: usize, act: &mut dyn FnMut() -> Duration) -> Duration {
    let frame = black_box([0u8; FRAME]);
    let passed = if frames == 0 {
        act()
    } else {
        deeper(frames - 1, act)
    };
    black_box(frame);
    passed
}

/// Lets each act; who begins changes from round to round, so that none has the better place.
pub fn in_turn<T>(all: &mut [T], round: usize, mut act: impl FnMut(&mut T)) {
    let (before, from) = all.split_at_mut(round % all.len());
    from.iter_mut().chain(before).for_each(&mut act);
}

/// The time that this thread has had a processor, so that others on the machine do not count.
fn processor_time() -> Duration {
    #[repr(C)]
    struct Timespec {
        seconds: i64,
        nanoseconds: i64,
    }
    unsafe extern "C" {
        fn clock_gettime(clock: i32, time: *mut Timespec) -> i32;
    }
    const THREAD: i32 = 3;
    let mut time = Timespec {
        seconds: 0,
        nanoseconds: 0,
    };
    // SAFETY: POSIX's function writes one timespec, laid out so on 64-bit Linux, and keeps no pointer.
    unsafe { clock_gettime(THREAD, &mut time) };
    Duration::new(time.seconds as u64, time.nanoseconds as u32)
}
