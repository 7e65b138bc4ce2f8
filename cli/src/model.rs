//! An opened model with its names: what the numbers of states and entries are called.

use crate::engine::{Answer, Engine, Item, Pair, State};
use crate::failure::Failure;
use crate::names::Names;
use crate::refusals::refusal;
use crate::text::Text;
use std::ffi::OsStr;

pub struct Model {
    pub text: Text,
    pub names: Names,
    pub start: Engine,
    pub definitions: Vec<String>,
    pub channels: Vec<String>,
    /// Of each sum the actions of its branches, as written.
    actions: Vec<Vec<String>>,
}

impl Model {
    /// Reads and opens a file. A refusal has its message.
    pub fn open(file: &OsStr, steady: bool) -> Result<Model, Failure> {
        let text = Text::read(file)?;
        let start = Engine::open(&text.bytes, steady).map_err(|answer| refused_text(&text, answer))?;
        let names = Names::read(&text.bytes);
        let words = |places: &[usize]| places.iter().map(|&place| text.word(place).to_string()).collect();
        let (definitions, channels) = (words(names.definitions()), words(names.channels()));
        let sums = (0..names.sum_count() as u64).map(|sum| actions(&text, &names, sum)).collect();
        Ok(Model { actions: sums, text, names, start, definitions, channels })
    }

    /// Definition and locals of the process at a place.
    pub fn process(&self, state: &State, place: u64) -> (&str, Vec<i64>) {
        let process = state.process(place);
        let locals = self.names.branch(process.sum, 0).map_or(0, |branch| branch.locals);
        let name = self.definitions.get(process.definition as usize).map_or("", String::as_str);
        (name, process.locals[..locals].to_vec())
    }

    /// The same, as `Name[1,2]`.
    pub fn written(&self, state: &State, place: u64) -> String {
        let (name, values) = self.process(state, place);
        format!("{name}[{}]", joined(&values, ","))
    }

    /// A branch's action, as written.
    pub fn action(&self, state: &State, place: u64, branch: u64) -> &str {
        let actions = self.actions.get(state.process(place).sum as usize);
        actions.and_then(|actions| actions.get(branch as usize)).map_or("", String::as_str)
    }

    pub fn channel(&self, pair: &Pair) -> String {
        let items = pair.items().map(|item| match item {
            Item::Number(number) => number.to_string(),
            Item::Name(number) => self.channels.get(number as usize).cloned().unwrap_or_default(),
        });
        items.collect::<Vec<_>>().join(",")
    }

    /// The items of a channel as it is named in a text.
    pub fn items(&self, channel: &str) -> Result<Vec<Item>, Failure> {
        let item = |word: &str| {
            let named = self.channels.iter().position(|name| name == word).map(|number| Item::Name(number as u64));
            named.or_else(|| word.parse().ok().map(Item::Number))
        };
        let items: Option<Vec<Item>> = channel.split(',').map(|word| item(word.trim())).collect();
        let known = if self.channels.is_empty() { "none".to_string() } else { self.channels.join(", ") };
        let name = &self.text.name;
        items.ok_or_else(|| Failure::Usage(format!("{name} has no channel {channel}; its channel names: {known}")))
    }

    /// The message of a refusal of a call on a state of this model.
    pub fn refused(&self, state: &State, answer: Answer) -> Failure {
        if answer.number != 12 {
            return refused_text(&self.text, answer);
        }
        let sum = state.process(answer.place).sum;
        let first = self.names.branch(sum, answer.branch).map_or(0, |branch| branch.first);
        let process = self.written(state, answer.place);
        let note = format!("process {}, {process}, branch {}\n", answer.place, answer.branch);
        Failure::Refused(message(&self.text, 12, Some(first), &note))
    }
}

fn actions(text: &Text, names: &Names, sum: u64) -> Vec<String> {
    let branches = (0..).map_while(|branch| names.branch(sum, branch));
    branches.map(|branch| text.action(branch.action)).collect()
}

/// Numbers with a sign between them.
pub fn joined(numbers: &[i64], sign: &str) -> String {
    numbers.iter().map(i64::to_string).collect::<Vec<_>>().join(sign)
}

fn refused_text(text: &Text, answer: Answer) -> Failure {
    let place = matches!(answer.number, 2..=10 | 29).then_some(answer.place as usize);
    Failure::Refused(message(text, answer.number, place, ""))
}

/// Place, number and meaning of a refusal, the line with a caret, and how to mend it.
pub fn message(text: &Text, number: u64, place: Option<usize>, note: &str) -> String {
    let refusal = refusal(number);
    let at = place.map_or(text.name.clone(), |place| text.at(place));
    let caret = place.map_or(String::new(), |place| text.caret(place));
    format!("{at}: refused {number}: {}\n{caret}{note}{}", refusal.wrong, refusal.mend)
}
