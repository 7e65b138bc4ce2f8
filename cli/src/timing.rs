//! `matgravel timing`: when each value of a channel is first lit.

use crate::args::{Command, Given, Opt};
use crate::csv;
use crate::curve::{Curve, Times};
use crate::decimal;
use crate::engine::{channel_numbers, Channel};
use crate::failure::Failure;
use crate::model::{joined, Model};
use crate::runs::{Ends, Plan, FIRST, RUNS, SEED, STEPS, THREADS, UNTIL};
use crate::walk::{End, Walk};
use std::io::Write;

const CHANNEL: Opt = Opt { name: "--channel", value: "C", about: "the channel, as chr or as x,3" };
pub const GRID: Opt =
    Opt { name: "--grid", value: "T", about: "shares by each multiple of this time (some twenty round ones)" };
const TIMES: Opt = Opt { name: "--times", value: "", about: "print each run's first times, for `matgravel add`" };

pub const COMMAND: Command = Command {
    name: "timing",
    files: "FILE",
    about: "Simulates runs and prints for each value of a channel when it was first lit, as a table of\n\
            comma-separated values: how many of the runs lit it; of those the mean, the standard deviation,\n\
            the quartiles and the median; and the share of all runs that lit it by each time of a grid.\n\
            If a run is refused there is no table.",
    options: &[CHANNEL, RUNS, SEED, FIRST, UNTIL, STEPS, THREADS, GRID, TIMES],
    run,
};

/// The columns of a table of first times.
pub const HEAD: [&str; 5] = ["seed", "run", "channel", "value", "time"];

fn run(given: &Given, out: &mut dyn Write) -> Result<(), Failure> {
    let name = given.needed(CHANNEL.name)?;
    let model = Model::open(given.file(), false)?;
    let channel = channel_numbers(&model.items(name)?);
    let channel = channel.ok_or_else(|| Failure::Usage(format!("{name}: a channel has one to three items")))?;
    let (plan, grid) = (Plan::read(given)?, given.time(GRID.name)?);
    let (mut ends, mut curve, mut rows) = (Ends::default(), Curve::default(), csv::line(&HEAD));
    let keeps_times = given.has(TIMES.name);
    let make = |walk| first_times(walk, &channel);
    plan.each(&model, make, |run, (times, end)| {
        ends.note(run, end);
        if keeps_times {
            rows += &time_rows(plan.seed, run, name, &times);
        } else {
            curve.add_run(times);
        }
        Ok(())
    })?;
    ends.judge(&model)?;
    if keeps_times {
        return Ok(out.write_all(rows.as_bytes())?);
    }
    curve.print(grid, out)
}

/// When a run first lit each value of a channel.
fn first_times(mut walk: Walk, channel: &Channel) -> (Times, End) {
    let mut times = Times::new();
    loop {
        let event = match walk.change() {
            Ok(event) => event,
            Err(end) => return (times, end),
        };
        let lit = walk.engine.state.only_pair_without(&walk.before).filter(|pair| pair.is_on(channel));
        if let Some(pair) = lit {
            if times.iter().all(|(values, _)| values != pair.values()) {
                times.push((pair.values().to_vec(), event.ticks));
            }
        }
    }
}

/// A row for each value that a run lit; one without value and time for a run that lit none.
fn time_rows(seed: u64, run: u64, channel: &str, times: &Times) -> String {
    let row =
        |value: String, time: String| csv::line(&[seed.to_string(), run.to_string(), channel.to_string(), value, time]);
    if times.is_empty() {
        return row(String::new(), String::new());
    }
    times.iter().map(|(values, ticks)| row(joined(values, " "), decimal::time(*ticks))).collect()
}
