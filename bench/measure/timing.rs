//! How long something took, several times over.

use std::fmt::{self, Display};
use std::time::{Duration, Instant};

/// How often things are run, and how long at most.
#[derive(Clone, Copy)]
pub struct Effort {
    pub runs: usize,
    /// What is still running then is ended: a solver of strings, or another program.
    pub strings_limit: Duration,
    pub limit: Duration,
    /// Only the outputs matter, so that little is tried.
    pub quick: bool,
}

/// What takes longer than this the first time is run less often.
const LONG: Duration = Duration::from_secs(2);
const LONG_RUNS: usize = 3;

/// The times of all runs of one thing.
#[derive(Clone)]
pub struct Timing {
    times: Vec<Duration>,
    /// A run was ended at this limit.
    ended: Option<Duration>,
    effort: Effort,
}

impl Timing {
    pub fn new(effort: Effort) -> Timing {
        Timing {
            times: Vec::new(),
            ended: None,
            effort,
        }
    }

    /// Is another run due?
    pub fn has_more(&self) -> bool {
        let runs = match (self.ended, self.times.first()) {
            (Some(_), _) => 1,
            (None, Some(&first)) if first > LONG => LONG_RUNS.min(self.effort.runs),
            _ => self.effort.runs,
        };
        self.times.len() < runs
    }

    pub fn add(&mut self, time: Duration) {
        self.times.push(time);
    }

    /// Adds a run that was ended at a limit.
    pub fn add_ended(&mut self, limit: Duration) {
        self.ended = Some(limit);
        self.times.push(limit);
    }

    /// The median, in milliseconds; of a run that was ended, at least that.
    pub fn milliseconds(&self) -> f64 {
        let mut times = self.times.clone();
        times.sort();
        times[times.len() / 2].as_secs_f64() * 1000.0
    }

    /// How many times another's time this is.
    pub fn ratio(&self, other: &Timing) -> f64 {
        self.milliseconds() / other.milliseconds()
    }
}

impl Display for Timing {
    fn fmt(&self, out: &mut fmt::Formatter) -> fmt::Result {
        if let Some(limit) = self.ended {
            return write!(out, "> {} s", limit.as_secs());
        }
        write!(out, "{}", milliseconds(self.milliseconds()))?;
        if self.times.len() < self.effort.runs {
            write!(out, " ({} runs)", self.times.len())?;
        }
        Ok(())
    }
}

/// Milliseconds with three digits that count, or all before the point, and nothing below a nanosecond.
pub fn milliseconds(time: f64) -> String {
    let digits = match time {
        _ if time < 0.001 => 6,
        _ if time < 0.01 => 5,
        _ if time < 0.1 => 4,
        _ if time < 1.0 => 3,
        _ if time < 10.0 => 2,
        _ if time < 100.0 => 1,
        _ => 0,
    };
    format!("{time:.digits$} ms")
}

/// Runs all of these in turn until each has had its runs. A run answers how long it took.
pub fn in_turn<const N: usize>(
    effort: Effort,
    runs: [&mut dyn FnMut() -> Duration; N],
) -> [Timing; N] {
    let mut timed = runs.map(|run| (run, Timing::new(effort)));
    while timed.iter().any(|(_, timing)| timing.has_more()) {
        for (run, timing) in &mut timed {
            if timing.has_more() {
                timing.add(run());
            }
        }
    }
    timed.map(|(_, timing)| timing)
}

/// A run of a call that may be too short for the clock: of as many calls in a row as take a millisecond,
/// the time of one.
pub fn in_a_row(mut call: impl FnMut()) -> impl FnMut() -> Duration {
    let mut calls = 1;
    move || loop {
        let began = Instant::now();
        for _ in 0..calls {
            call();
        }
        let time = began.elapsed();
        if time >= Duration::from_millis(1) {
            return time / calls;
        }
        calls *= 2;
    }
}
