//! `matgravel report`: each definition's share of the total rate.

use crate::args::{Command, Given, Opt};
use crate::csv::Table;
use crate::decimal;
use crate::engine::State;
use crate::failure::Failure;
use crate::list::{share, CSV};
use crate::model::Model;
use crate::runs::{bounds, Ends, SEED, STEPS, UNTIL};
use crate::walk::Walk;
use std::io::Write;

const RUN: Opt = Opt { name: "--run", value: "I", about: "the number of the run that leads to that time (1)" };

pub const COMMAND: Command = Command {
    name: "report",
    files: "FILE",
    about: "Prints each definition's processes, rate and share of the total rate: at the start, or at a time\n\
            of a run. While something of a very high rate can happen, it hides the others.",
    options: &[UNTIL, RUN, SEED, STEPS, CSV],
    run,
};

fn run(given: &Given, out: &mut dyn Write) -> Result<(), Failure> {
    let model = Model::open(given.file(), false)?;
    let mut engine = model.start.clone();
    if given.has(UNTIL.name) {
        let number = given.number(RUN.name, 1, 0)?;
        let mut walk = Walk::new(&model.start, given.number(SEED.name, 1, 0)?, number, bounds(given)?);
        let end = walk.last();
        let mut ends = Ends::default();
        ends.note(number, end);
        ends.judge(&model)?;
        engine.state = walk.before;
    }
    let (weights, total) = engine.report().map_err(|answer| model.refused(&engine.state, answer))?;
    let csv = given.has(CSV.name);
    let mut table = Table::new(&["definition", "processes", "rate", "share"]);
    for (number, (name, &weight)) in model.definitions.iter().zip(&weights).enumerate() {
        let count = count(&engine.state, number);
        table.row(vec![name.clone(), count.to_string(), decimal::rate(weight), share(weight, total, csv)]);
    }
    table.print(csv, out)?;
    if !csv {
        writeln!(out, "total {}", decimal::rate(total))?;
    }
    Ok(())
}

/// How many processes stand in the text of a definition.
fn count(state: &State, definition: usize) -> usize {
    let places = 0..state.process_count() as u64;
    places.filter(|&place| state.process(place).definition == definition as u64).count()
}
