//! The climbs. A sheet is changed again and again, and a change stays if the plan then takes at least as long. A climb
//! ends where nothing has made it longer for a while. The next one begins elsewhere, or goes on from one of the slowest
//! sheets found, after several changes at once.

use super::change::changed;
use super::clock::Clock;
use super::sheet::Sheet;
use super::starts::Starts;
use crate::random::Random;
use std::cmp::Reverse;
use std::time::{Duration, Instant};

/// Sheets that are kept, each with a beginning of its own.
const KEPT: usize = 6;
/// A climb looks back after so many tries, and ends unless the plan takes longer by one part in `GAIN`.
const LEG: usize = 1000;
const GAIN: u32 = 100;
/// The sheet is timed again after so many tries, since the machine may have become faster.
const AGAIN: usize = 50;
/// Turns in each of which a change must hold, and by which together the ends of legs and of climbs are compared.
const CONFIRMING: usize = 2;
const COMPARING: usize = 6;
/// One climb in so many goes on from a kept sheet, after `SHAKEN` changes at most.
const ONWARD: usize = 2;
const SHAKEN: usize = 8;

/// A sheet on the way, and the number of the climb with which it began.
#[derive(Clone)]
struct Place {
    sheet: Sheet,
    text: String,
    began: usize,
}

impl Place {
    fn new(sheet: Sheet, began: usize) -> Place {
        let text = sheet.to_string();
        Place { sheet, text, began }
    }
}

pub struct Climbs {
    starts: Starts,
    clock: Clock,
    random: Random,
    /// The slowest first.
    kept: Vec<Place>,
    pub climbs: usize,
    pub tries: usize,
}

impl Climbs {
    pub fn new(starts: Starts, seed: u64) -> Climbs {
        Climbs {
            starts,
            clock: Clock::new(),
            random: Random { state: seed },
            kept: Vec::new(),
            climbs: 0,
            tries: 0,
        }
    }

    /// The texts of the slowest sheets.
    pub fn kept(&self) -> impl Iterator<Item = &str> {
        self.kept.iter().map(|place| place.text.as_str())
    }

    /// Climbs again and again until `end`.
    pub fn run(&mut self, end: Instant) {
        while Instant::now() < end {
            let start = self.start();
            if self.clock.least(&start.text) > Duration::ZERO {
                self.climbs += 1;
                let top = self.top(start, end);
                self.keep(top);
            }
        }
    }

    /// A sheet to climb from, which may be refused.
    fn start(&mut self) -> Place {
        if self.kept.len() < KEPT || self.random.below(ONWARD) != 0 {
            return Place::new(self.starts.some(&mut self.random), self.climbs);
        }
        let kept = self.random.pick(&self.kept);
        let (mut sheet, began) = (kept.sheet.clone(), kept.began);
        for _ in 0..=self.random.below(SHAKEN) {
            sheet = changed(&sheet, &mut self.random);
        }
        Place::new(sheet, began)
    }

    /// Where the climb from a good sheet ends.
    fn top(&mut self, mut here: Place, end: Instant) -> Place {
        loop {
            let camp = here.clone();
            self.leg(&mut here, end);
            let times = self.clock.in_turns(COMPARING, &[&camp.text, &here.text]);
            let (before, now) = (times[0], times[1]);
            if now < before {
                return camp;
            }
            if now < before + before / GAIN || Instant::now() >= end {
                return here;
            }
        }
    }

    /// Tries one change after the other.
    fn leg(&mut self, here: &mut Place, end: Instant) {
        let mut bar = Duration::ZERO;
        for at in 0..LEG {
            if Instant::now() >= end {
                return;
            }
            if at % AGAIN == 0 {
                bar = self.clock.least(&here.text);
            }
            self.tries += 1;
            let next = Place::new(changed(&here.sheet, &mut self.random), here.began);
            if self.as_slow(&here.text, bar, &next.text) {
                *here = next;
                bar = self.clock.least(&here.text);
            }
        }
    }

    /// Whether another sheet takes at least as long, which is `bar`, and does so each time that both are timed again.
    fn as_slow(&mut self, here: &str, bar: Duration, next: &str) -> bool {
        next != here
            && self.clock.takes(bar, next)
            && (0..CONFIRMING).all(|_| {
                let times = self.clock.in_turns(1, &[here, next]);
                times[1] >= times[0]
            })
    }

    /// Keeps a climb's end if it is one of the slowest; of those with one beginning the slowest stays.
    fn keep(&mut self, top: Place) {
        let mut places = std::mem::take(&mut self.kept);
        places.push(top);
        let texts: Vec<&str> = places.iter().map(|place| place.text.as_str()).collect();
        let times = self.clock.in_turns(COMPARING, &texts);
        let mut timed: Vec<_> = times.into_iter().zip(places).collect();
        timed.sort_by_key(|(time, _)| Reverse(*time));
        for (_, place) in timed {
            if self.kept.iter().all(|kept| kept.began != place.began) {
                self.kept.push(place);
            }
        }
        self.kept.truncate(KEPT);
    }
}
