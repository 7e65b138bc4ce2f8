//! Many runs of a model, on several threads, taken in the order of their numbers.

use crate::args::{Given, Opt};
use crate::engine::STACK;
use crate::failure::Failure;
use crate::model::{message, Model};
use crate::progress::Progress;
use crate::walk::{Bounds, End, Walk};
use std::io::{self, Write};
use std::sync::atomic::{AtomicU64, Ordering};
use std::sync::Mutex;
use std::thread;

/// Runs that each thread has in hand before their results are taken.
const IN_HAND: u64 = 4;

pub const RUNS: Opt = Opt { name: "--runs", value: "N", about: "how many runs (1)" };
pub const SEED: Opt = Opt { name: "--seed", value: "S", about: "the seed, a whole number (1)" };
pub const FIRST: Opt = Opt { name: "--first", value: "I", about: "the number of the first run (1)" };
pub const UNTIL: Opt = Opt { name: "--until", value: "T", about: "end each run at this time of the model" };
pub const STEPS: Opt = Opt { name: "--steps", value: "M", about: "end each run after this many steps (100000)" };
pub const THREADS: Opt = Opt { name: "--threads", value: "K", about: "how many threads (1); the output is the same" };
const MOST_STEPS: u64 = 100_000;
const MOST_THREADS: u64 = 256;

/// Which runs are made.
pub struct Plan {
    pub seed: u64,
    first: u64,
    runs: u64,
    threads: u64,
    bounds: Bounds,
}

impl Plan {
    pub fn read(given: &Given) -> Result<Plan, Failure> {
        let plan = Plan {
            seed: given.number(SEED.name, 1, 0)?,
            first: given.number(FIRST.name, 1, 0)?,
            runs: given.number(RUNS.name, 1, 1)?,
            threads: given.number(THREADS.name, 1, 1)?.min(MOST_THREADS),
            bounds: bounds(given)?,
        };
        let last = plan.first.checked_add(plan.runs);
        last.ok_or_else(|| Failure::Usage(format!("{} and {} are too large together", FIRST.name, RUNS.name)))?;
        Ok(plan)
    }

    /// Makes every run by `make`, and takes what they made by `take`, by ascending numbers.
    pub fn each<T: Send>(
        &self,
        model: &Model,
        make: impl Fn(Walk) -> T + Sync,
        mut take: impl FnMut(u64, T) -> Result<(), Failure>,
    ) -> Result<(), Failure> {
        let mut progress = Progress::new(self.runs);
        let end = self.first + self.runs;
        let mut from = self.first;
        while from < end {
            let to = end.min(from.saturating_add(self.threads.saturating_mul(IN_HAND)));
            let walk = |run| make(Walk::new(&model.start, self.seed, run, self.bounds));
            for (run, made) in (from..).zip(together(self.threads, from..to, walk)) {
                take(run, made)?;
            }
            from = to;
            progress.done(from - self.first);
        }
        Ok(())
    }
}

pub fn bounds(given: &Given) -> Result<Bounds, Failure> {
    let until = given.time(UNTIL.name)?.unwrap_or(u64::MAX);
    Ok(Bounds { until, steps: given.number(STEPS.name, MOST_STEPS, 1)? })
}

/// Makes some runs on several threads; the results are in the order of the runs.
fn together<T: Send>(threads: u64, runs: std::ops::Range<u64>, make: impl Fn(u64) -> T + Sync) -> Vec<T> {
    let next = AtomicU64::new(runs.start);
    let made = Mutex::new(Vec::new());
    let work = || loop {
        let run = next.fetch_add(1, Ordering::Relaxed);
        if run >= runs.end {
            return;
        }
        let result = make(run);
        made.lock().expect("no thread fails").push((run, result));
    };
    thread::scope(|scope| {
        for _ in 1..threads.min(runs.end - runs.start) {
            // With fewer threads than were asked for the same runs are made.
            let _ = thread::Builder::new().stack_size(STACK).spawn_scoped(scope, work);
        }
        work();
    });
    let mut made = made.into_inner().expect("no thread fails");
    made.sort_by_key(|(run, _)| *run);
    made.into_iter().map(|(_, result)| result).collect()
}

/// What is to be said of runs that ended otherwise than by themselves or by their time.
#[derive(Default)]
pub struct Ends {
    refused: u64,
    first: Option<(u64, u64, u64)>,
    full: u64,
}

impl Ends {
    pub fn note(&mut self, run: u64, end: End) {
        match end {
            End::Still | End::Late => {}
            End::Full => self.full += 1,
            End::Refused { number, steps } => {
                self.refused += 1;
                self.first.get_or_insert((run, number, steps));
            }
        }
    }

    /// Fails if a run was refused; says on standard error if some were cut short.
    pub fn judge(&self, model: &Model) -> Result<(), Failure> {
        if self.full > 0 {
            let what = format!("{} of the runs ended after the steps of {}", self.full, STEPS.name);
            // A remark that can't be shown is no reason to end.
            let _ = writeln!(io::stderr(), "{what}; a larger number lets them go on");
        }
        let Some((run, number, steps)) = self.first else { return Ok(()) };
        let note = format!("run {run}, after {steps} steps; {} of the runs were refused\n", self.refused);
        Err(Failure::Refused(message(&model.text, number, None, &note)))
    }
}
