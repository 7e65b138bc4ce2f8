//! `matgravel import-bcs`: a bcs model in our dialect, as far as that can say it.

mod form;
mod gates;
mod linear;
mod ratio;
mod read;
mod say;
mod scales;
mod spread;
mod tree;

use crate::args::{Command, Given};
use crate::engine::Engine;
use crate::failure::Failure;
use crate::refusals::refusal;
use crate::text::{read_up_to, Text};
use crate::tokens;
use say::{Sayer, Trouble};
use scales::Scales;
use std::collections::{BTreeMap, BTreeSet};
use std::io::Write;

/// Bytes and tokens of a bcs model that are read: our texts have at most 4,096 tokens.
const LONGEST: u64 = 1 << 20;
const MOST_TOKENS: usize = 8_192;
/// Bytes of a name of our texts.
const NAME: usize = 16;

pub const COMMAND: Command = Command {
    name: "import-bcs",
    files: "FILE",
    about: "Turns a model of the simulator bcs into a text for this engine: parameters with a point are counted\n\
            in whole parts, gates before brackets are spread over what is in them, U and I become union and\n\
            inter. What can't be said is named on standard error with its line and left out.",
    options: &[],
    run,
};

fn run(given: &Given, out: &mut dyn Write) -> Result<(), Failure> {
    let bytes = read_up_to(given.file(), LONGEST)?;
    let mut text = Text { name: crate::text::name(given.file()), bytes };
    let tokens = tokens::split(&text.bytes);
    if let Some(beyond) = tokens.get(MOST_TOKENS) {
        let what = format!("more than {MOST_TOKENS} tokens can't be said");
        return Err(Failure::Refused(told(&text, &Trouble { place: beyond.start, what })));
    }
    let renamed = renames(tokens.iter().map(|token| token.word(&text.bytes)).collect());
    let model = read::read(&text.bytes, &renamed).map_err(|unread| {
        let what = format!("this is no bcs model: {} should stand here", unread.wanted);
        Failure::Refused(told(&text, &Trouble { place: unread.place, what }))
    })?;
    let scales = Scales::of_model(&model).map_err(|trouble| Failure::Refused(told(&text, &trouble)))?;
    let mut sayer = Sayer { model: &model, scales: &scales, troubles: Vec::new() };
    let said = sayer.text();
    for (long, short) in &renamed {
        writeln!(out, "// {long} is called {short} here")?;
    }
    out.write_all(said.as_bytes())?;
    let troubles: Vec<String> = sayer.troubles.iter().map(|trouble| told(&text, trouble)).collect();
    if !troubles.is_empty() {
        return Err(Failure::Refused(troubles.concat()));
    }
    text.bytes = said.into_bytes();
    opened(&text)
}

fn told(text: &Text, trouble: &Trouble) -> String {
    format!("{}: {}\n{}", text.at(trouble.place), trouble.what, text.caret(trouble.place))
}

/// The engine's word on what was written.
fn opened(text: &Text) -> Result<(), Failure> {
    let Err(answer) = Engine::open(&text.bytes, false) else { return Ok(()) };
    let refusal = refusal(answer.number);
    let caret = text.caret(answer.place as usize);
    let words =
        format!("the text that was written is refused, {}: {}\n{caret}{}", answer.number, refusal.wrong, refusal.mend);
    Err(Failure::Refused(words))
}

/// Shorter names for those words that our texts can't have as names.
fn renames(words: BTreeSet<&str>) -> BTreeMap<String, String> {
    let mut renamed = BTreeMap::new();
    let mut taken: BTreeSet<String> = words.iter().map(|word| word.to_string()).collect();
    for word in words.iter().filter(|word| tokens::is_name(word.as_bytes())) {
        if word.len() <= NAME && !["union", "inter"].contains(word) {
            continue;
        }
        let short = (0..).map(|number: u64| {
            let tail = if number == 0 { "_".to_string() } else { format!("_{number}") };
            format!("{}{tail}", &word[..word.len().min(NAME - tail.len())])
        });
        let short = short.into_iter().find(|short| !taken.contains(short)).unwrap_or_default();
        taken.insert(short.clone());
        renamed.insert(word.to_string(), short);
    }
    renamed
}
