//! Climbs: from one sheet or book, by small steps, to those on which the library takes longer.

use crate::place::Place;
use crate::processor;
use crate::random::Random;
use crate::report::Hex;
use crate::steps;
use std::time::{Duration, Instant};

/// How often one that seems slow is asked; the least time counts.
const CALLS: usize = 3;
/// A call that takes this long is not made again.
const SURE: Duration = Duration::from_millis(500);
/// A climb starts from the slowest of so many.
const STARTS: usize = 60;
/// A climb ends after so many steps, or this part of the whole time, with nothing slower.
const PATIENCE: usize = 4000;
const PATIENCE_PARTS: u32 = 8;
/// One that takes at least this many hundredths of the slowest's time is gone on from, so that a climb
/// can cross level ground.
const LEVEL_PERCENT: u32 = 97;

/// A sheet or a book, how long the library takes, and what it answers.
#[derive(Clone)]
pub struct Timed<P> {
    pub place: P,
    pub time: Duration,
    answer: i64,
}

pub struct Climber<P> {
    pub random: Random,
    end: Instant,
    patience: Duration,
    /// To start from.
    pub hard: Vec<P>,
    asked: usize,
}

/// The slowest of as many climbs as the time allows.
pub fn climb_all<P: Place>(seed: u64, time: Duration, hard: Vec<P>) -> Timed<P> {
    let mut climber = Climber {
        random: Random::new(seed),
        end: Instant::now() + time,
        patience: time / PATIENCE_PARTS,
        hard,
        asked: 0,
    };
    let mut slowest: Option<Timed<P>> = None;
    let mut climbs = 0;
    while slowest.is_none() || climber.has_time() {
        let start = P::start(&mut climber);
        let top = climber.climb(start);
        climbs += 1;
        println!("climb {climbs}: {}", top.told());
        if slowest
            .as_ref()
            .map_or(true, |slowest| top.time > slowest.time)
        {
            slowest = Some(top);
        }
    }
    println!("climbs: {climbs}, {} asked: {}", P::NAME, climber.asked);
    slowest.expect("a climb")
}

impl<P: Place> Climber<P> {
    fn has_time(&self) -> bool {
        Instant::now() < self.end
    }

    /// How long the library takes. If that is no longer than `least`, one call is enough to know.
    fn timed(&mut self, place: P, least: Duration) -> Timed<P> {
        let bytes = place.bytes();
        self.asked += 1;
        let mut time = Duration::MAX;
        let mut answer = 0;
        for _ in 0..CALLS {
            let began = processor::time();
            answer = P::ask(&bytes);
            time = time.min(processor::time() - began);
            assert!(answer >= 0, "accepted bytes are refused: {}", Hex(&bytes));
            if time <= least || time > SURE {
                break;
            }
        }
        Timed {
            place,
            time,
            answer,
        }
    }

    /// Goes on to slower ones until none is found.
    pub fn climb(&mut self, start: Timed<P>) -> Timed<P> {
        let mut top = start;
        let mut here = top.place.clone();
        let mut tried = 0;
        let mut since = Instant::now();
        while tried < PATIENCE && since.elapsed() < self.patience && self.has_time() {
            tried += 1;
            let next = match steps::step(&mut self.random, &here) {
                Some(next) => next,
                None => continue,
            };
            let level = top.time * LEVEL_PERCENT / 100;
            let next = self.timed(next, level);
            if next.time > level {
                here = next.place.clone();
            }
            if next.time > top.time {
                println!("  {}", next.told());
                top = next;
                tried = 0;
                since = Instant::now();
            }
        }
        // A time that was high by chance does not last.
        self.timed(top.place, Duration::ZERO)
    }

    /// The slowest of some made by chance.
    pub fn slowest_of_any(&mut self) -> Timed<P> {
        self.slowest_of(STARTS, P::any)
    }

    /// The slowest of so many that `make` makes.
    pub fn slowest_of(&mut self, count: usize, make: impl Fn(&mut Climber<P>) -> P) -> Timed<P> {
        let place = make(self);
        let mut slowest = self.timed(place, Duration::ZERO);
        for _ in 1..count {
            if !self.has_time() {
                break;
            }
            let place = make(self);
            let next = self.timed(place, slowest.time);
            if next.time > slowest.time {
                slowest = next;
            }
        }
        slowest
    }
}

impl<P: Place> Timed<P> {
    /// How long, and how it ended.
    pub fn time_told(&self) -> String {
        let milliseconds = self.time.as_secs_f64() * 1000.0;
        format!("{milliseconds:.3} ms, {}", P::told(self.answer))
    }

    pub fn told(&self) -> String {
        format!("{}: {}", self.time_told(), Hex(&self.place.bytes()))
    }
}
