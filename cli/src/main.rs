//! The command `matgravel`: what a laboratory does with a model of the Beacon Calculus.
//!
//! The proved engine decides; what is here reads files and options, lends random words, counts and prints.

#![deny(unsafe_code)]

mod acting;
mod add;
mod args;
mod bcs;
mod check;
mod csv;
mod curve;
mod decimal;
mod engine;
mod failure;
mod graph;
mod linked;
mod list;
mod model;
mod names;
mod outline;
mod progress;
mod random;
mod refusals;
mod report;
mod runs;
mod search;
mod simulate;
mod text;
mod timing;
mod tokens;
mod walk;

use args::Command;
use failure::Failure;
use std::ffi::OsString;
use std::io::{self, BufWriter, Write};
use std::process::ExitCode;

const COMMANDS: &[&Command] = &[
    &check::COMMAND,
    &list::COMMAND,
    &simulate::COMMAND,
    &timing::COMMAND,
    &add::COMMAND,
    &report::COMMAND,
    &search::COMMAND,
    &graph::COMMAND,
    &bcs::COMMAND,
];

fn main() -> ExitCode {
    let words: Vec<OsString> = std::env::args_os().skip(1).collect();
    let thread = std::thread::Builder::new().stack_size(engine::STACK).spawn(move || ended(&words));
    match thread.map(|thread| thread.join()) {
        Ok(Ok(status)) => ExitCode::from(status),
        _ => ExitCode::from(2),
    }
}

/// Runs a command line, prints its output and its error, and gives the exit status.
fn ended(words: &[OsString]) -> u8 {
    let mut out = BufWriter::with_capacity(1 << 16, io::stdout().lock());
    let done = run(words, &mut out).and_then(|()| Ok(out.flush()?));
    let Err(failure) = done else { return 0 };
    if let Some(message) = failure.message() {
        // What was printed before stands before the message; a second failure of the output adds nothing.
        let _ = out.flush();
        let _ = writeln!(io::stderr(), "{}", message.trim_end());
    }
    failure.status()
}

fn run(words: &[OsString], out: &mut dyn Write) -> Result<(), Failure> {
    let is_there = |long, short| words.iter().any(|word| word == long || word == short);
    if is_there("--version", "-V") {
        return Ok(writeln!(out, "matgravel {}", env!("CARGO_PKG_VERSION"))?);
    }
    let is_first = words.first().is_some_and(|word| word == "help" || word == "--help" || word == "-h");
    let name = words.get(usize::from(is_first)).map(|word| word.to_string_lossy());
    let name = name.as_deref();
    let asks_help = is_first || is_there("--help", "-h");
    if asks_help && name.is_none() {
        return Ok(out.write_all(help().as_bytes())?);
    }
    let command = COMMANDS.iter().find(|command| Some(command.name) == name);
    let command = command.ok_or_else(|| Failure::Usage(unknown(name)))?;
    if asks_help {
        return Ok(out.write_all(command.help().as_bytes())?);
    }
    (command.run)(&args::read(command, &words[1..])?, out)
}

fn unknown(first: Option<&str>) -> String {
    let what = first.map_or(String::new(), |word| format!("there is no command {word}\n"));
    format!("{what}usage: matgravel COMMAND FILE [options]; matgravel --help names the commands")
}

fn help() -> String {
    let mut help = "matgravel COMMAND FILE [options]\n\nA FILE named - is standard input. `matgravel COMMAND --help` \
                    says more of a command.\n\n"
        .to_string();
    for command in COMMANDS {
        let first = command.about.lines().next().unwrap_or("");
        help += &args::line(command.name, first);
    }
    help + "\nExit status: 0 done, 1 refused, 2 a mistake in the command line or a file.\n"
}
