//! `matgravel check`: is a text a model, and can it begin?

use crate::args::{Command, Given, Opt};
use crate::failure::Failure;
use crate::model::Model;
use std::io::Write;

pub const COMMAND: Command = Command {
    name: "check",
    files: "FILE",
    about: "Says whether a model is accepted, or where and why it is refused.",
    options: &[Opt { name: "--steady", value: "", about: "ask too that no continuation leaves more than one process" }],
    run,
};

fn run(given: &Given, out: &mut dyn Write) -> Result<(), Failure> {
    let model = Model::open(given.file(), given.has("--steady"))?;
    let state = &model.start.state;
    let listing = model.start.list().map_err(|answer| model.refused(state, answer))?;
    let counts = [
        counted(model.definitions.len(), "definition"),
        counted(model.names.sum_count(), "sum"),
        counted(model.channels.len(), "channel name"),
        counted(state.process_count(), "process"),
        counted(listing.entries.len(), "first transition"),
    ];
    Ok(writeln!(out, "{}: accepted: {}", model.text.name, counts.join(", "))?)
}

fn counted(count: usize, what: &str) -> String {
    let ending = match (count, what.ends_with('s')) {
        (1, _) => "",
        (_, true) => "es",
        _ => "s",
    };
    format!("{count} {what}{ending}")
}
