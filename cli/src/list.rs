//! `matgravel list`: the first listing of a model.

use crate::acting::Acting;
use crate::args::{Command, Given, Opt};
use crate::csv::Table;
use crate::decimal;
use crate::engine::{Entry, Pair, State, BINDING};
use crate::failure::Failure;
use crate::model::Model;
use std::io::Write;

pub const CSV: Opt = Opt { name: "--csv", value: "", about: "print a table for machines" };

pub const COMMAND: Command = Command {
    name: "list",
    files: "FILE",
    about: "Lists every transition that can happen first, with its rate and its share of the total.",
    options: &[CSV],
    run,
};

fn run(given: &Given, out: &mut dyn Write) -> Result<(), Failure> {
    let model = Model::open(given.file(), false)?;
    let state = &model.start.state;
    let listing = model.start.list().map_err(|answer| model.refused(state, answer))?;
    let csv = given.has(CSV.name);
    let mut table = Table::new(&[Acting::head(csv), &["rate", "share"]].concat());
    for entry in &listing.entries {
        let mut row = Acting::new(&model, state, entry, taken(state, entry)).row(csv);
        row.push(decimal::rate(entry.weight));
        row.push(share(entry.weight, listing.total, csv));
        table.row(row);
    }
    table.print(csv, out)?;
    if !csv {
        writeln!(out, "total {}", decimal::rate(listing.total))?;
    }
    Ok(())
}

/// The pair that a receive with names takes.
pub fn taken<'a>(state: &'a State, entry: &Entry) -> Option<Pair<'a>> {
    (entry.kind == BINDING).then(|| state.pairs().nth(entry.pair as usize)).flatten()
}

/// A part of a total: a fraction for machines, hundredths for people.
pub fn share(part: u64, total: u64, csv: bool) -> String {
    let total = u128::from(total.max(1));
    if csv {
        decimal::quotient(part.into(), total, 10)
    } else {
        decimal::quotient(100 * u128::from(part), total, 4) + "%"
    }
}
