//! The command line: one reader for all commands, and the help that is made from the same tables.

use crate::decimal;
use crate::failure::Failure;
use std::ffi::{OsStr, OsString};
use std::io::Write;
use std::slice::Iter;

/// An option: its name, what stands after it (nothing for a switch), and its line of help.
pub struct Opt {
    pub name: &'static str,
    pub value: &'static str,
    pub about: &'static str,
}

pub struct Command {
    pub name: &'static str,
    /// The files that it takes, as the help names them; `..` at the end says one or more.
    pub files: &'static str,
    pub about: &'static str,
    pub options: &'static [Opt],
    pub run: fn(&Given, &mut dyn Write) -> Result<(), Failure>,
}

impl Command {
    fn usage(&self) -> String {
        format!("matgravel {} {}", self.name, self.files)
    }

    pub fn help(&self) -> String {
        let mut help = format!("{} [options]\n\n{}\n\n", self.usage(), self.about);
        for option in self.options {
            help += &line(&format!("{} {}", option.name, option.value), option.about);
        }
        help + &line("--help", "print this") + &line("--version", "print the version")
    }
}

/// A line of help: what it is about, indented, and the words in a column of their own.
pub fn line(what: &str, about: &str) -> String {
    format!("  {:18} {about}\n", what.trim_end())
}

/// What a command line gave to a command.
pub struct Given {
    /// Names that need not be text.
    pub files: Vec<OsString>,
    values: Vec<(&'static str, String)>,
}

/// Reads the words after the command's name.
pub fn read(command: &Command, words: &[OsString]) -> Result<Given, Failure> {
    let mut given = Given { files: Vec::new(), values: Vec::new() };
    let mut words = words.iter();
    while let Some(word) = words.next() {
        if word == "-" || !word.to_string_lossy().starts_with('-') {
            given.files.push(word.clone());
        } else {
            given.values.push(option(command, &word.to_string_lossy(), &mut words)?);
        }
    }
    let several = command.files.ends_with("..");
    if given.files.is_empty() || (!several && given.files.len() > 1) {
        return Err(wrong(command, &format!("{} files were named", given.files.len())));
    }
    Ok(given)
}

/// An option and its value, which stands behind `=` or is the next word.
fn option(command: &Command, word: &str, rest: &mut Iter<OsString>) -> Result<(&'static str, String), Failure> {
    let (name, joined) = match word.split_once('=') {
        Some((name, value)) => (name, Some(value.to_string())),
        None => (word, None),
    };
    let option = command.options.iter().find(|option| option.name == name);
    let option = option.ok_or_else(|| wrong(command, &format!("there is no option {name}")))?;
    let value = match (option.value, joined) {
        ("", None) => String::new(),
        ("", Some(_)) => return Err(wrong(command, &format!("{name} takes no value"))),
        (_, Some(value)) => value,
        (what, None) => {
            let next = rest.next().map(|value| value.to_string_lossy().into_owned());
            next.ok_or_else(|| wrong(command, &format!("{name} needs its {what}")))?
        }
    };
    Ok((option.name, value))
}

fn wrong(command: &Command, what: &str) -> Failure {
    Failure::Usage(format!("{what}\nusage: {} [options]; --help says more", command.usage()))
}

impl Given {
    pub fn file(&self) -> &OsStr {
        &self.files[0]
    }

    /// The option's value; the last where it stands more than once.
    pub fn text(&self, name: &str) -> Option<&str> {
        self.values.iter().rev().find(|(given, _)| *given == name).map(|(_, value)| value.as_str())
    }

    pub fn has(&self, name: &str) -> bool {
        self.text(name).is_some()
    }

    pub fn needed(&self, name: &str) -> Result<&str, Failure> {
        self.text(name).ok_or_else(|| Failure::Usage(format!("{name} is needed; --help says more")))
    }

    /// A whole number, at least `least`.
    pub fn number(&self, name: &str, default: u64, least: u64) -> Result<u64, Failure> {
        let Some(word) = self.text(name) else { return Ok(default) };
        let number = word.parse().ok().filter(|&number| number >= least);
        number.ok_or_else(|| Failure::Usage(format!("{name} {word}: this is no whole number from {least} on")))
    }

    /// A time in units of the model, as ticks.
    pub fn time(&self, name: &str) -> Result<Option<u64>, Failure> {
        let Some(word) = self.text(name) else { return Ok(None) };
        let wrong = || Failure::Usage(format!("{name} {word}: this is no time of at most four decimals"));
        decimal::ticks(word).map(Some).ok_or_else(wrong)
    }
}
