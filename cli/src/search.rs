//! `matgravel search`: can a run come to a wait?

use crate::acting::Acting;
use crate::args::{Command, Given, Opt};
use crate::csv::Table;
use crate::failure::Failure;
use crate::list::{taken, CSV};
use crate::model::{message, Model};
use std::io::Write;

const WAIT: Opt = Opt { name: "--wait", value: "NAME", about: "the wait that the run is to end with" };
const DEPTH: Opt = Opt { name: "--depth", value: "D", about: "transitions of a run at most, 1 to 8 (8)" };
const DEEPEST: u64 = 8;

pub const COMMAND: Command = Command {
    name: "search",
    files: "FILE",
    about: "Looks for the first run from the start that ends with a wait of a given name, and prints its steps.\n\
            The time grows with the number of runs: where depth 8 is too slow, a smaller one answers.",
    options: &[WAIT, DEPTH, CSV],
    run,
};

fn run(given: &Given, out: &mut dyn Write) -> Result<(), Failure> {
    let name = given.needed(WAIT.name)?;
    let depth = given.number(DEPTH.name, DEEPEST, 0)?;
    let model = Model::open(given.file(), false)?;
    let found = model.start.search(name.as_bytes(), depth);
    if found.number != 0 {
        return Err(Failure::Refused(message(&model.text, found.number, None, "")));
    }
    let csv = given.has(CSV.name);
    let length = found.length as usize;
    if !csv && length == 0 {
        return Ok(writeln!(out, "no run of at most {depth} transitions comes to {name}{}", hint(&model, name))?);
    }
    steps(&model, &found.run[..length], csv)?.print(csv, out)
}

/// Follows a run by its entry numbers.
fn steps(model: &Model, run: &[u64], csv: bool) -> Result<Table, Failure> {
    let mut engine = model.start.clone();
    let mut table = Table::new(&[&["step"], Acting::head(csv)].concat());
    for (number, &entry) in (1..).zip(run) {
        let listing = engine.list().map_err(|answer| model.refused(&engine.state, answer))?;
        let entry = entry as usize;
        let pair = taken(&engine.state, &listing.entries[entry]);
        let acting = Acting::new(model, &engine.state, &listing.entries[entry], pair);
        table.row([vec![number.to_string()], acting.row(csv)].concat());
        engine.take(&listing, entry).map_err(|answer| model.refused(&engine.state, answer))?;
    }
    Ok(table)
}

/// Where the model has no wait of that name, those that it has.
fn hint(model: &Model, name: &str) -> String {
    let waits: Vec<&str> = model.names.waits().iter().map(|&place| model.text.word(place)).collect();
    if waits.contains(&name) {
        String::new()
    } else {
        format!("; the model's waits: {}", waits.join(", "))
    }
}
