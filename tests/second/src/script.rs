//! Lists of calls as scripts for the program `calls`, and what that program prints for one.
//!
//! A script has lines `open N` and `steady N` (N bytes and a newline follow), `list`, `step D`, `wait W` (a waiting
//! draw for the next timed step or run), `time D` (a timed step), `word W` (a word for the next run), `run N` (a run of at
//! most N steps, with room for 1,024 events, which are printed), `report`, `save NAME`, `return NAME`, `forget NAME` (all bytes
//! of the line after the blank), `seek D NAME` (a search to the depth D, one digit; all bytes after the second), `begin D NAME`
//! (the same in pieces), `carry N`, `state`, `clock` and `independent I J` (of two entries of the listing buffer: 1 or 0).
//! Every line ends with a newline, words stand one blank apart, numbers are digits alone. A line of
//! another form, or an opening without its N bytes, ends the run with `bad` and its number, which
//! counts every newline before it, those of texts too.
//!
//! What `calls` can't do, changes of the buffers and other lengths than the right ones, stands on
//! lines that begin with `!`. They are read where `Form::Marked` is asked for.

use crate::clock::Clock;
use crate::generate::{Buffers, Call, Depth, Draw, Engine, Given, Lengths, Word, RIGHT, SPARE};
use crate::ran::EVENT;
use crate::{Answer, EVENTS, LISTING, MODEL, REPORT, SAVES, SEARCH, STATE};
use std::fmt::Write;

/// Numbers of a listing entry.
const ENTRY: usize = 7;

/// The program `calls` lends so many waiting draws and so many words at most.
pub const WAITING: usize = 4_096;
pub const WORDS: usize = 4_096;

/// Which lines a script may have.
#[derive(Clone, Copy, Debug, PartialEq, Eq)]
pub enum Form {
    /// Those of the program `calls`.
    Plain,
    /// Also lines that begin with `!`.
    Marked,
}

/// One thing that a script asks for.
#[derive(Clone, Debug)]
pub enum Line {
    Call(Call),
    State,
    Clock,
    /// Are these two entries of the listing buffer independent?
    Independent(u64, u64),
}

/// Can the program `calls` run these, or has the script lines with `!`, or too many waiting draws or words?
pub fn is_plain(calls: &[Call]) -> bool {
    let short = |call: &Call| match call {
        Call::Timed { waiting, .. } => waiting.len() <= WAITING,
        Call::Run { words, waiting, .. } => waiting.len() <= WAITING && words.len() <= WORDS,
        _ => true,
    };
    calls.iter().all(|call| call.lengths() == Some(&RIGHT) && short(call))
}

/// The script of a list of calls whose draws are numbers.
pub fn write(calls: &[Call]) -> Vec<u8> {
    let mut script = Vec::new();
    for call in calls {
        script.extend(line(call));
    }
    script
}

fn line(call: &Call) -> Vec<u8> {
    let text = match call {
        Call::Open { text, lengths } | Call::Steady { text, lengths } => {
            let head = format!("{}{} {}\n", lengths_line(lengths), call.name(), text.len());
            return [head.as_bytes(), text, b"\n"].concat();
        }
        Call::List { lengths } => format!("{}list\n", lengths_line(lengths)),
        Call::Step { lengths, draw: Draw::Exactly(draw) } => format!("{}step {draw}\n", lengths_line(lengths)),
        Call::Timed { lengths, draw: Draw::Exactly(draw), waiting } => {
            format!("{}{}time {draw}\n", lines("wait", waiting), lengths_line(lengths))
        }
        Call::Run { lengths, words, waiting, limit } => {
            let words: Vec<u64> = words.iter().map(exact_word).collect();
            let put = lines("word", &words) + &lines("wait", waiting);
            format!("{put}{}run {limit}\n", lengths_line(lengths))
        }
        Call::Step { .. } | Call::Timed { .. } => unreachable!("a draw that isn't a number"),
        Call::Report { lengths } => format!("{}report\n", lengths_line(lengths)),
        Call::Save { lengths, name } | Call::Return { lengths, name } | Call::Forget { lengths, name } => {
            let head = format!("{}{} ", lengths_line(lengths), call.name());
            return [head.as_bytes(), name, b"\n"].concat();
        }
        Call::Search { lengths, name, depth: Depth::Exactly(depth) }
        | Call::Begin { lengths, name, depth: Depth::Exactly(depth) } => {
            let word = if matches!(call, Call::Search { .. }) { "seek" } else { "begin" };
            let head = format!("{}{word} {depth} ", lengths_line(lengths));
            return [head.as_bytes(), name, b"\n"].concat();
        }
        Call::Search { .. } | Call::Begin { .. } => unreachable!("a depth that isn't a number"),
        Call::Carry { lengths, number } => format!("{}carry {number}\n", lengths_line(lengths)),
        Call::SetSearch { place, number } => format!("! search {place} {number}\n"),
        Call::EndSearch => "! search none\n".to_string(),
        Call::SetSaves { place, number } => format!("! saves {place} {number}\n"),
        Call::SetClock(clock) => format!("! clock {} {}\n", clock.ticks, clock.draws),
        Call::SetState { place, number } => format!("! state {place} {number}\n"),
        Call::SetModel { place, byte } => format!("! model {place} {byte}\n"),
        Call::Light { count, first } => format!("! light {count} {first}\n"),
        Call::Crowd { count } => format!("! crowd {count}\n"),
        Call::Fill { number } => format!("! fill {number}\n"),
    };
    text.into_bytes()
}

/// A line for each number.
fn lines<T: ToString>(word: &str, numbers: &[T]) -> String {
    numbers.iter().map(|number| format!("{word} {}\n", number.to_string())).collect()
}

fn exact_word(word: &Word) -> u64 {
    match word {
        Word::Exactly(number) => *number,
        Word::Bound(_) => unreachable!("a word that isn't a number"),
    }
}

/// Lengths that aren't the right ones hold for the call on the next line.
fn lengths_line(lengths: &Lengths) -> String {
    if *lengths == RIGHT {
        return String::new();
    }
    let Lengths { model, state, listing, report, saves, events, search } = lengths;
    format!("! lengths {model} {state} {listing} {report} {saves} {events} {search}\n")
}

/// Reads a script, up to the first line of another form: the lines before it, and its number
/// from 1 if there is one.
pub fn read(script: &[u8], form: Form) -> (Vec<Line>, Option<usize>) {
    let mut reader =
        Reader { script, form, place: 0, number: 0, lengths: RIGHT, waiting: Vec::new(), words: Vec::new() };
    let mut lines = Vec::new();
    while reader.place < script.len() {
        let here = reader.number + 1;
        match reader.next() {
            Some(line) => lines.extend(line),
            None => return (lines, Some(here)),
        }
    }
    (lines, None)
}

struct Reader<'a> {
    script: &'a [u8],
    form: Form,
    place: usize,
    /// Lines read.
    number: usize,
    /// What the next call is lent.
    lengths: Lengths,
    /// The waiting draws for the next timed step or run.
    waiting: Vec<u16>,
    /// The words for the next run.
    words: Vec<Word>,
}

impl Reader<'_> {
    /// The next bytes up to a newline at or after `size`, which is passed.
    fn bytes(&mut self, size: Option<usize>) -> Option<Vec<u8>> {
        let rest = &self.script[self.place..];
        let end = size.or_else(|| rest.iter().position(|&byte| byte == b'\n'))?;
        if *rest.get(end)? != b'\n' {
            return None;
        }
        self.place += end + 1;
        self.number += 1 + rest[..end].iter().filter(|&&byte| byte == b'\n').count();
        Some(rest[..end].to_vec())
    }

    /// What the next line asks for: nothing if it gives lengths. `None`: it has another form.
    fn next(&mut self) -> Option<Option<Line>> {
        let line = self.bytes(None)?;
        if let Some(call) = named(&line, self.lengths, self.form) {
            self.lengths = RIGHT;
            return Some(Some(Line::Call(call)));
        }
        let line = String::from_utf8(line).ok()?;
        let words: Vec<&str> = line.split(' ').collect();
        if words[0] == "!" && self.form == Form::Plain {
            return None;
        }
        let lengths = self.lengths;
        if let ["!", "lengths", model, state, listing, report, saves, events, search] = words[..] {
            let (model, state) = (length(model, MODEL)?, length(state, STATE)?);
            let (listing, report) = (length(listing, LISTING)?, length(report, REPORT)?);
            let (saves, events) = (length(saves, SAVES)?, length(events, EVENTS)?);
            let search = length(search, SEARCH)?;
            self.lengths = Lengths { model, state, listing, report, saves, events, search };
            return Some(None);
        }
        if let ["word", word] = words[..] {
            self.words.push(Word::Exactly(whole(word)?));
            return Some(None);
        }
        if let ["wait", draw] = words[..] {
            self.waiting.push(whole(draw)?);
            return Some(None);
        }
        self.lengths = RIGHT;
        if let ["time", draw] = words[..] {
            return Some(Some(Line::Call(self.timed(whole(draw)?, lengths))));
        }
        if let ["run", limit] = words[..] {
            return Some(Some(Line::Call(self.run(whole(limit)?, lengths))));
        }
        if let [word @ ("open" | "steady"), size] = words[..] {
            let text = self.bytes(Some(whole(size)?))?;
            let call = if word == "open" { Call::Open { text, lengths } } else { Call::Steady { text, lengths } };
            return Some(Some(Line::Call(call)));
        }
        short_line(&words, lengths).map(Some)
    }
}

impl Reader<'_> {
    /// A timed step by the waiting draws so far.
    fn timed(&mut self, draw: u64, lengths: Lengths) -> Call {
        let waiting = taken(&mut self.waiting, self.form, WAITING);
        Call::Timed { lengths, draw: Draw::Exactly(draw), waiting }
    }

    /// A run by the words and waiting draws so far.
    fn run(&mut self, limit: u64, lengths: Lengths) -> Call {
        let waiting = taken(&mut self.waiting, self.form, WAITING);
        Call::Run { lengths, words: taken(&mut self.words, self.form, WORDS), waiting, limit }
    }
}

/// All that was put so far, of which the program `calls` takes the first ones only.
fn taken<T>(put: &mut Vec<T>, form: Form, most: usize) -> Vec<T> {
    let mut taken = std::mem::take(put);
    if form == Form::Plain {
        taken.truncate(most);
    }
    taken
}

/// A line whose call is lent a name: all bytes after the first blank, of a search after the second, to the line's end.
fn named(line: &[u8], lengths: Lengths, form: Form) -> Option<Call> {
    let (word, name) = parted(line)?;
    match word {
        b"save" => Some(Call::Save { lengths, name: name.to_vec() }),
        b"return" => Some(Call::Return { lengths, name: name.to_vec() }),
        b"forget" => Some(Call::Forget { lengths, name: name.to_vec() }),
        b"seek" | b"begin" => {
            let (depth, name) = parted(name)?;
            if form == Form::Plain && depth.len() != 1 {
                return None;
            }
            let depth = Depth::Exactly(whole(std::str::from_utf8(depth).ok()?)?);
            let name = name.to_vec();
            Some(match word {
                b"seek" => Call::Search { lengths, name, depth },
                _ => Call::Begin { lengths, name, depth },
            })
        }
        _ => None,
    }
}

/// What stands before the first blank and after it.
fn parted(line: &[u8]) -> Option<(&[u8], &[u8])> {
    let blank = line.iter().position(|&byte| byte == b' ')?;
    Some((&line[..blank], &line[blank + 1..]))
}

/// A line that has all it says on it.
fn short_line(words: &[&str], lengths: Lengths) -> Option<Line> {
    let call = match *words {
        ["state"] => return Some(Line::State),
        ["clock"] => return Some(Line::Clock),
        ["independent", first, second] => return Some(Line::Independent(whole(first)?, whole(second)?)),
        ["list"] => Call::List { lengths },
        ["step", draw] => Call::Step { lengths, draw: Draw::Exactly(whole(draw)?) },
        ["report"] => Call::Report { lengths },
        ["carry", number] => Call::Carry { lengths, number: whole(number)? },
        ["!", "state", place, number] => Call::SetState { place: length(place, STATE)?, number: number.parse().ok()? },
        ["!", "model", place, byte] => Call::SetModel { place: length(place, MODEL)?, byte: whole(byte)? },
        ["!", "saves", place, number] => Call::SetSaves { place: length(place, SAVES)?, number: number.parse().ok()? },
        ["!", "search", "none"] => Call::EndSearch,
        ["!", "search", place, number] => {
            Call::SetSearch { place: length(place, SEARCH)?, number: number.parse().ok()? }
        }
        ["!", "clock", ticks, draws] => Call::SetClock(Clock { ticks: whole(ticks)?, draws: whole(draws)? }),
        ["!", "light", count, first] => Call::Light { count: whole(count)?, first: first.parse().ok()? },
        ["!", "crowd", count] => Call::Crowd { count: whole(count)? },
        ["!", "fill", number] => Call::Fill { number: whole(number)? },
        _ => return None,
    };
    Some(Line::Call(call))
}

/// Digits alone: no sign.
fn whole<T: std::str::FromStr>(word: &str) -> Option<T> {
    word.bytes().all(|byte| byte.is_ascii_digit()).then(|| word.parse().ok())?
}

fn length(word: &str, right: usize) -> Option<usize> {
    whole(word).filter(|&length: &usize| length <= right + SPARE)
}

/// What the program `calls` prints for a script on this engine.
pub fn print(engine: &Engine, script: &[u8], form: Form) -> String {
    let mut printed = String::new();
    let mut buffers = Buffers::default();
    let (lines, bad) = read(script, form);
    for line in &lines {
        match line {
            Line::State => printed.push_str(&(numbers(&buffers.state[..STATE]) + "\n")),
            Line::Clock => printed.push_str(&format!("{} {}\n", buffers.clock.ticks, buffers.clock.draws)),
            Line::Independent(first, second) => {
                let is = buffers.independent(engine, *first, *second);
                printed.push_str(if is { "1\n" } else { "0\n" });
            }
            Line::Call(call) => {
                if let Some(given) = buffers.make(engine, call) {
                    print_given(&mut printed, call, &given, &buffers);
                }
            }
        }
    }
    if let Some(line) = bad {
        printed.push_str(&format!("bad,{line}\n"));
    }
    printed
}

fn print_given(printed: &mut String, call: &Call, given: &Given, buffers: &Buffers) {
    writeln!(printed, "{}", numbers(&given.numbers())).expect("a string takes all");
    if let Given::Ran(ran) = given {
        for event in buffers.events.chunks(EVENT).take(ran.steps as usize) {
            writeln!(printed, "  {}", numbers(event)).expect("a string takes all");
        }
    }
    let Some(Answer { number, count, .. }) = given.answer() else { return };
    if *number != 0 && *number < 15 {
        return;
    }
    match call {
        Call::List { .. } | Call::Step { .. } | Call::Timed { .. } => {
            for entry in buffers.listing.chunks(ENTRY).take(*count as usize) {
                writeln!(printed, "  {}", numbers(entry)).expect("a string takes all");
            }
        }
        Call::Report { .. } => {
            writeln!(printed, "  {}", numbers(&buffers.report[..REPORT])).expect("a string takes all");
        }
        _ => {}
    }
}

fn numbers<T: ToString>(list: &[T]) -> String {
    list.iter().map(T::to_string).collect::<Vec<_>>().join(" ")
}
