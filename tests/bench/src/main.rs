//! Times the calls of both engines on the same models, side by side.
//!
//!     bench [--rounds N]         how many rounds (10 if not given)
//!
//! In each round the engines take turns: each opens the model and lists it with no process, again
//! and again, then runs it from its start, each state listed, reported and then stepped. Rounds make the
//! same calls, so each call counts with its least time over all rounds: other work on the machine
//! only adds. What is printed is the mean of these over the run. Buffers are lent as the call
//! before left them; none is cleared in between. Then each searches for a wait that there is not, in at
//! most three rounds: the states that it walks in a second, in one call and in pieces of 1,000. And each runs the models in one call, and by
//! listings and timed steps one by one: nanoseconds a step; at last the seconds of 500 runs to the end. Without the feature `engine` only the
//! second engine is timed.

mod models;
mod runs;
mod searches;

use models::Model;
use runs::Start;
use second::generate::{Engine, Random};
use second::{Clock, Opening, LISTING, MODEL, REPORT, SAVES, SEARCH, STATE};
use std::time::{Duration, Instant};

/// The draws of every run come from this seed.
const SEED: u64 = 2;
/// A run that never ends is ended after so many steps.
const STEPS: usize = 1_000;
/// How long a round repeats each of the calls that are the same each time.
const REPEATING: Duration = Duration::from_millis(20);
const ROUNDS: usize = 10;
/// A search takes long: so many rounds are enough.
const SEARCHES: usize = 3;
/// The models that are run in one call.
const RUN: [&str; 4] = ["chromosome", "crowd", "kinesin", "sheet"];
/// The model that is run to its end, and how often.
const WHOLE: &str = "chromosome";
const WHOLE_RUNS: u64 = 500;

// What is timed. `read` is a listing of the model with no process: the reading, the tests of the
// buffers and the clearing that every list and step begins with.
const OPEN: usize = 0;
const READ: usize = 1;
const LIST: usize = 2;
const STEP: usize = 3;
const SUBTOTALS: usize = 4;
const PARTS: [&str; 5] = ["open", "read", "list", "step", "report"];

#[cfg(feature = "engine")]
const ENGINES: [(&str, Engine); 2] = [("engine", compare::linked::ENGINE), ("second", second::generate::SECOND)];
#[cfg(not(feature = "engine"))]
const ENGINES: [(&str, Engine); 1] = [("second", second::generate::SECOND)];

fn main() {
    let words: Vec<String> = std::env::args().skip(1).collect();
    let rounds = match &words[..] {
        [] => ROUNDS,
        [flag, number] if flag == "--rounds" => number.parse().expect("--rounds N"),
        _ => panic!("bench [--rounds N]"),
    };
    compare::with_stack(move || {
        run(rounds);
        search(rounds.min(SEARCHES));
        run_at_once(rounds);
        run_whole();
    });
}

fn run(rounds: usize) {
    println!("{:12} {:6} {}", "model", "call", columns());
    for model in models::all() {
        let mut timed = vec![Times::default(); ENGINES.len()];
        for _ in 0..rounds {
            for ((_, engine), times) in ENGINES.iter().zip(&mut timed) {
                times.round(engine, &model);
            }
        }
        for (part, name) in PARTS.iter().enumerate() {
            let times: Vec<f64> = timed.iter().map(|times| mean(&times.least[part])).collect();
            println!("{:12} {name:6} {}", model.name, microseconds(&times));
        }
        println!("{:12} {}", "", facts(&model, &timed));
    }
}

/// Prints the states that each engine walks in a second, in one call and in pieces, in the shortest of all rounds.
fn search(rounds: usize) {
    let names = ENGINES.iter().flat_map(|(name, _)| [format!("{name}/s"), "in pieces/s".to_string()]);
    let names: Vec<String> = names.map(|name| format!("{name:>12}")).collect();
    println!("{:12} {:>6} {:>8} {}", "search", "depth", "states", names.join(" "));
    for search in searches::ALL {
        let buffers = ENGINES.map(|(_, engine)| search.begun(&engine, SEED));
        let states = search.states(SEED);
        let mut least = ENGINES.map(|_| [f64::INFINITY; 2]);
        for _ in 0..rounds {
            for (((_, engine), buffers), [whole, pieces]) in ENGINES.iter().zip(&buffers).zip(&mut least) {
                *whole = whole.min(search.seconds(engine, buffers));
                let (time, walked) = search.seconds_in_pieces(engine, buffers);
                assert_eq!(walked, states as u64, "{}", search.name);
                *pieces = pieces.min(time);
            }
        }
        let rates = least.iter().flatten().map(|time| format!("{:12.0}", states as f64 / time));
        println!("{:12} {:6} {states:8} {}", search.name, search.depth, rates.collect::<Vec<_>>().join(" "));
    }
}

/// Prints nanoseconds a step of runs in one call and one by one, the least over all rounds.
fn run_at_once(rounds: usize) {
    let names = ENGINES.iter().flat_map(|(name, _)| [format!("{name} run"), format!("{name} single")]);
    let names: Vec<String> = names.map(|name| format!("{name:>16}")).collect();
    println!("{:12} {:>6} {}", "ns a step", "steps", names.join(" "));
    for model in models::all().iter().filter(|model| RUN.contains(&model.name)) {
        let starts = ENGINES.map(|(_, engine)| Start::new(&engine, model, SEED));
        let mut least = ENGINES.map(|_| [f64::INFINITY; 2]);
        let mut steps = 0;
        for _ in 0..rounds {
            for (((_, engine), start), least) in ENGINES.iter().zip(&starts).zip(&mut least) {
                let both = [start.at_once(engine), start.one_by_one(engine)];
                assert!(both[0].1 == both[1].1, "{}", model.name);
                steps = both[0].1.ran.steps;
                for (least, (time, _)) in least.iter_mut().zip(&both) {
                    *least = least.min(*time);
                }
            }
        }
        let times: Vec<String> = least.iter().flatten().map(|time| format!("{time:16.0}")).collect();
        println!("{:12} {steps:6} {}", model.name, times.join(" "));
    }
}

/// Prints the seconds of many runs from the model's start until nothing is left, each in one call and by words of its own.
fn run_whole() {
    let names: Vec<String> = ENGINES.iter().map(|(name, _)| format!("{:>12}", format!("{name} s"))).collect();
    println!("{:12} {:>6} {}", "whole runs", "runs", names.join(" "));
    for model in models::all().iter().filter(|model| model.name == WHOLE) {
        let seconds = |engine: &Engine| (0..WHOLE_RUNS).map(|seed| Start::new(engine, model, seed).whole(engine)).sum();
        let times = ENGINES.map(|(_, engine)| -> f64 { seconds(&engine) });
        let times: Vec<String> = times.iter().map(|time| format!("{time:12.3}")).collect();
        println!("{:12} {WHOLE_RUNS:6} {}", model.name, times.join(" "));
    }
}

/// The heads of the columns of times.
fn columns() -> String {
    let names: Vec<String> = ENGINES.iter().map(|(name, _)| format!("{:>12}", format!("{name} µs"))).collect();
    let ratio = if ENGINES.len() == 2 { "       ratio" } else { "" };
    names.join(" ") + ratio
}

fn microseconds(times: &[f64]) -> String {
    let mut line: Vec<String> = times.iter().map(|time| format!("{:12.2}", time * 1e6)).collect();
    if let [first, second] = times {
        line.push(format!("{:11.3}", first / second));
    }
    line.join(" ")
}

/// The size of the model and the run, bytes opened in a second, the part of a step that reading
/// takes.
fn facts(model: &Model, timed: &[Times]) -> String {
    let steps = timed[0].least[STEP].len();
    let mut line = format!("{} bytes, {steps} steps, at most {} entries", model.text.len(), timed[0].entries);
    for ((name, _), times) in ENGINES.iter().zip(timed) {
        let [open, read, step] = [OPEN, READ, STEP].map(|part| mean(&times.least[part]));
        let rate = model.text.len() as f64 / open / 1e6;
        line += &format!("; {name} opens {rate:.2} MB/s, reading is {:.0}% of a step", 100.0 * read / step);
    }
    line
}

fn mean(times: &[f64]) -> f64 {
    times.iter().sum::<f64>() / times.len() as f64
}

/// The times of one engine on one model.
#[derive(Clone, Default)]
struct Times {
    /// Seconds of each call of a run, the least over all rounds, by part.
    least: [Vec<f64>; PARTS.len()],
    /// The most entries listed in the run.
    entries: u64,
}

struct Buffers {
    model: Vec<u8>,
    state: Vec<i64>,
    listing: Vec<u64>,
    report: Vec<u64>,
    saves: Vec<i64>,
    search: Vec<i64>,
}

impl Times {
    /// Notes the time since `start` for the call of this part with this number.
    fn note(&mut self, part: usize, call: usize, start: Instant) {
        let time = start.elapsed().as_secs_f64();
        match self.least[part].get_mut(call) {
            Some(least) => *least = least.min(time),
            None => self.least[part].push(time),
        }
    }

    fn round(&mut self, engine: &Engine, model: &Model) {
        let mut buffers = Buffers {
            model: vec![0; MODEL],
            state: vec![0; STATE],
            listing: vec![0; LISTING],
            report: vec![0; REPORT],
            saves: vec![0; SAVES],
            search: vec![0; SEARCH],
        };
        let begun = Instant::now();
        while begun.elapsed() < REPEATING {
            let Buffers { model: held, state, saves, search, .. } = &mut buffers;
            let clock = &mut Clock::default();
            let start = Instant::now();
            let opened = (engine.open)(&model.text, Opening { model: held, state, saves, search, clock });
            self.note(OPEN, 0, start);
            assert_eq!(opened.number, 0, "{}", model.name);
        }
        let nobody = vec![0; STATE];
        let begun = Instant::now();
        while begun.elapsed() < REPEATING {
            let start = Instant::now();
            let listed = (engine.list)(&buffers.model, &nobody, &mut buffers.listing);
            self.note(READ, 0, start);
            assert_eq!((listed.number, listed.count), (0, 0), "{}", model.name);
        }
        self.run(engine, &mut buffers);
    }

    /// Runs the model from its start: each state is listed and reported, then a step is taken.
    fn run(&mut self, engine: &Engine, buffers: &mut Buffers) {
        let mut random = Random::new(SEED);
        for step in 0..STEPS {
            let start = Instant::now();
            let listed = (engine.list)(&buffers.model, &buffers.state, &mut buffers.listing);
            self.note(LIST, step, start);
            self.entries = self.entries.max(listed.count);
            let start = Instant::now();
            let reported = (engine.report)(&buffers.model, &buffers.state, &mut buffers.report);
            self.note(SUBTOTALS, step, start);
            assert_eq!(reported, listed);
            if listed.number != 0 || listed.total == 0 {
                return;
            }
            let draw = random.number() % listed.total;
            let start = Instant::now();
            let taken = (engine.step)(&buffers.model, &mut buffers.state, &mut buffers.listing, draw);
            self.note(STEP, step, start);
            if taken.number != 0 {
                return;
            }
        }
    }
}
