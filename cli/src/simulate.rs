//! `matgravel simulate`: the events of many runs.

use crate::acting::Acting;
use crate::args::{Command, Given};
use crate::csv;
use crate::decimal;
use crate::engine::{Event, Pair, KILL, LAUNCH};
use crate::failure::Failure;
use crate::list;
use crate::model::Model;
use crate::runs::{Ends, Plan, FIRST, RUNS, SEED, STEPS, THREADS, UNTIL};
use crate::walk::{End, Walk};
use std::io::Write;

pub const COMMAND: Command = Command {
    name: "simulate",
    files: "FILE",
    about: "Simulates runs and prints every event of each, as a table of comma-separated values.\n\
            Run I of a seed is the same whatever other runs are made. A run ends when nothing can happen.\n\
            The columns channel and lit name the pair that was lit, put out or taken; they are empty for\n\
            other actions, for a launch of a pair that is lit and for a kill of one that isn't.",
    options: &[RUNS, SEED, FIRST, UNTIL, STEPS, THREADS],
    run,
};

/// The first two columns of the table.
pub const HEAD: [&str; 2] = ["run", "time"];

fn run(given: &Given, out: &mut dyn Write) -> Result<(), Failure> {
    let model = Model::open(given.file(), false)?;
    let plan = Plan::read(given)?;
    out.write_all(csv::line(&[&HEAD[..], &Acting::FIELDS].concat()).as_bytes())?;
    let mut ends = Ends::default();
    let make = |walk| events(&model, walk);
    plan.each(&model, make, |run, (rows, end)| {
        ends.note(run, end);
        let run = run.to_string() + ",";
        for row in rows {
            out.write_all(run.as_bytes())?;
            out.write_all(row.as_bytes())?;
        }
        Ok(())
    })?;
    ends.judge(&model)
}

/// The rows of a run without its number, and how it ended.
fn events(model: &Model, mut walk: Walk) -> (Vec<String>, End) {
    let mut rows = Vec::new();
    loop {
        match walk.step() {
            Ok(event) => rows.push(row(model, &walk, &event)),
            Err(end) => return (rows, end),
        }
    }
}

fn row(model: &Model, walk: &Walk, event: &Event) -> String {
    let mut fields = vec![decimal::time(event.ticks)];
    fields.extend(Acting::new(model, &walk.before, &event.entry, pair(walk, event)).fields());
    csv::line(&fields)
}

/// The pair that an event lit, put out or took.
pub fn pair<'a>(walk: &'a Walk, event: &Event) -> Option<Pair<'a>> {
    let after = &walk.engine.state;
    match event.entry.kind {
        LAUNCH => after.only_pair_without(&walk.before),
        KILL => walk.before.only_pair_without(after),
        _ => list::taken(&walk.before, &event.entry),
    }
}
