//! Compares the library's engine with the second engine, call by call.
//!
//!     compare                    the fixed seeds, as the test does
//!     compare --from SEED        seeds from this one on, until a difference or the user ends it
//!     compare --seconds N        as long as this, from the seed given or the first after the fixed ones
//!
//! A difference is printed with its script, which is also written to `difference.script`.

use compare::met::Met;
use compare::orders::{self, Tried};
use compare::{lists, specimens};
use second::generate::Engine;
use std::process::ExitCode;
use std::time::{Duration, Instant};

/// So many lists are run between two looks at the clock.
const BATCH: u64 = 200;

fn main() -> ExitCode {
    let Some((from, seconds)) = flags() else {
        eprintln!("compare [--from SEED] [--seconds N]");
        return ExitCode::FAILURE;
    };
    let Some(engine) = tried() else {
        eprintln!("Built without the engine. Run `tools/build.sh engine`, then build with --features engine.");
        return ExitCode::FAILURE;
    };
    compare::with_stack(move || run(&engine, from, seconds))
}

#[cfg(feature = "engine")]
fn tried() -> Option<Engine> {
    Some(compare::linked::ENGINE)
}

#[cfg(not(feature = "engine"))]
fn tried() -> Option<Engine> {
    None
}

/// The seed to start at and the time to take, where given. `None`: the words have another form.
fn flags() -> Option<(Option<u64>, Option<u64>)> {
    let words: Vec<String> = std::env::args().skip(1).collect();
    let (mut from, mut seconds) = (None, None);
    for pair in words.chunks(2) {
        match (pair[0].as_str(), pair.get(1)?.parse().ok()?) {
            ("--from", number) => from = Some(number),
            ("--seconds", number) => seconds = Some(number),
            _ => return None,
        }
    }
    Some((from, seconds))
}

fn run(engine: &Engine, from: Option<u64>, seconds: Option<u64>) -> ExitCode {
    let (mut met, mut tried) = (Met::default(), Tried::default());
    let fixed = from.is_none() && seconds.is_none();
    let mut seed = if fixed { 0 } else { from.unwrap_or(lists::LISTS) };
    let end = Instant::now() + Duration::from_secs(seconds.unwrap_or(u64::from(u32::MAX)));
    while Instant::now() < end && !(fixed && seed >= lists::LISTS) {
        eprintln!("seeds from {seed}; {} calls so far", met.calls);
        if let Err(report) = lists::run(engine, &second::generate::SECOND, seed..seed + BATCH, &mut met) {
            println!("{report}");
            if std::fs::write("difference.script", &report.script).is_err() {
                eprintln!("difference.script could not be written");
            }
            return ExitCode::FAILURE;
        }
        if let Err(fault) = orders::run(engine, seed..seed + BATCH, &mut tried) {
            println!("{fault}");
            return ExitCode::FAILURE;
        }
        seed += BATCH;
    }
    println!("{met}\n{tried}");
    let missing = [met.missing(&specimens::names()), tried.missing()].concat();
    for what in &missing {
        println!("never met: {what}");
    }
    if missing.is_empty() || !fixed {
        ExitCode::SUCCESS
    } else {
        ExitCode::FAILURE
    }
}
