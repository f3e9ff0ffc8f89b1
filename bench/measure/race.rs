//! Programs run as processes, one against another: each in turn, so that what else the machine does
//! meets all of them.

use crate::fail;
use crate::timing::{Effort, Timing};
use std::fs::{self, File};
use std::io;
use std::process::{Child, Command, Stdio};
use std::sync::mpsc::{self, RecvTimeoutError};
use std::thread;
use std::time::{Duration, Instant};

/// A program with its words, the file that it has for its standard input, and how long it may run.
pub struct Contender {
    pub program: String,
    pub words: Vec<String>,
    pub input: Option<String>,
    pub limit: Duration,
}

/// How one run ended, if it was not ended at its limit.
pub struct Ended {
    pub status: Option<i32>,
    pub printed: Vec<u8>,
}

impl Contender {
    /// A program that reads a file on its standard input.
    pub fn reading(program: &str, input: &str, effort: Effort) -> Contender {
        Contender {
            program: program.to_string(),
            words: Vec::new(),
            input: Some(input.to_string()),
            limit: effort.limit,
        }
    }

    /// A program that is given words.
    pub fn given(program: &str, words: &[&str], limit: Duration) -> Contender {
        Contender {
            program: program.to_string(),
            words: words.iter().map(|word| word.to_string()).collect(),
            input: None,
            limit,
        }
    }

    /// Runs it once, and answers how long that took. It must print this.
    pub fn printing(&self, due: &[u8]) -> Duration {
        match self.run() {
            (time, Some(ended)) if ended.printed == due => time,
            _ => fail(&format!("{} does not print what is due", self.program)),
        }
    }

    /// Runs it once. None if it was ended at its limit.
    fn run(&self) -> (Duration, Option<Ended>) {
        let run = self.try_run("target/bench/printed");
        run.unwrap_or_else(|error| fail(&format!("{}: {error}", self.program)))
    }

    /// Runs it, with its output in this file, which is emptied first.
    fn try_run(&self, output: &str) -> io::Result<(Duration, Option<Ended>)> {
        let input = match &self.input {
            Some(file) => Stdio::from(File::open(file)?),
            None => Stdio::null(),
        };
        let mut command = Command::new(&self.program);
        command.args(&self.words).stdin(input);
        command.stdout(File::create(output)?).stderr(Stdio::null());
        let limit = self.limit;
        let (ended, waits) = mpsc::channel();
        let (started, starts) = mpsc::channel();
        let watch = thread::spawn(move || {
            let process: u32 = starts.recv().unwrap_or(0);
            let late = waits.recv_timeout(limit) == Err(RecvTimeoutError::Timeout);
            if late {
                end(process);
            }
            late
        });
        let began = Instant::now();
        let mut child: Child = command.spawn()?;
        started.send(child.id()).expect("the watch listens");
        let status = child.wait()?;
        let time = began.elapsed();
        // The watch does not listen any more where it was late.
        ended.send(()).unwrap_or(());
        let late = watch.join().expect("the watch ends");
        let run = Ended {
            status: status.code(),
            printed: fs::read(output)?,
        };
        Ok((time, (!late).then_some(run)))
    }
}

/// Ends a process.
fn end(process: u32) {
    let status = Command::new("kill")
        .args(["-9", &process.to_string()])
        .status();
    if !status.map_or(false, |status| status.success()) {
        fail(&format!("process {process} cannot be ended"));
    }
}

/// Runs all of them in turn until each has had its runs. Each run that came to an end is judged.
pub fn race(
    effort: Effort,
    contenders: &[Contender],
    mut judge: impl FnMut(usize, &Ended),
) -> Vec<Timing> {
    let mut timings = vec![Timing::new(effort); contenders.len()];
    while timings.iter().any(Timing::has_more) {
        for (number, contender) in contenders.iter().enumerate() {
            if !timings[number].has_more() {
                continue;
            }
            match contender.run() {
                (time, Some(ended)) => {
                    timings[number].add(time);
                    judge(number, &ended);
                }
                (_, None) => timings[number].add_ended(contender.limit),
            }
        }
    }
    timings
}
