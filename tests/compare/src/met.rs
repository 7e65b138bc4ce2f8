//! What the calls of a comparison have met: answers, kinds of steps, specimens.

use crate::{pieces, ran, searched};
use second::generate::{Buffers, Call, Draw, Given};
use second::limits::{HIGHEST, LOWEST};
use second::state::{FIRST_PAIR, FIRST_PROCESS, FIRST_VALUE, LOCALS, PAIR, PROCESS, VALUE_COUNT};
use second::syntax::ITEMS;
use second::{model, MODEL};
use std::collections::{BTreeMap, BTreeSet};
use std::fmt;

/// The kind of a wait, and those of the entries with a channel.
const WAIT: u64 = 1;
const CHANNEL_KINDS: std::ops::RangeInclusive<u64> = 2..=7;
/// Numbers of a listing entry.
const ENTRY: usize = 7;
/// What each call must have answered.
const ANSWERS: [(&str, &[u64]); 13] = [
    ("open", &[0, 1, 2, 3, 4, 5, 6, 7, 8, 9, 10]),
    ("steady", &[0, 1, 2, 3, 4, 5, 6, 7, 8, 9, 10, 29]),
    ("list", &[0, 1, 11, 12, 13, 14]),
    ("step", &[0, 1, 11, 12, 13, 14, 15, 16, 17, 18, 19]),
    ("timed", &[0, 1, 11, 12, 13, 14, 15, 16, 17, 18, 19, 23, 24, 25]),
    ("report", &[0, 1, 11, 12, 13, 14]),
    ("save", &[0, 1, 11, 20, 22]),
    ("return", &[0, 1, 11, 20, 21]),
    ("forget", &[0, 1, 11, 20, 21]),
    ("search", &[0, 1, 11, 26, 27]),
    ("run", &[0, 1, 11, 12, 13, 14, 15, 17, 18, 19, 23, 24, 25]),
    ("begin", &[0, 1, 11, 26]),
    ("carry", &[0, 1, 11, 27, 28]),
];
/// Lengths of runs that searches must have found, 0 for none.
const LENGTHS: std::ops::RangeInclusive<u64> = 0..=8;
/// Where a text was found not to be steady.
const UNSTEADY: [&str; 2] = ["29 at a bracket", "29 at a call"];
/// Draws at the ends, where there is a total.
const DRAWS: [&str; 4] = ["0", "total - 1", "total", "the largest"];
/// Numbers of a state that are values, and where such a number can stand: at an end of the range, or one past it.
const VALUES: [&str; 3] = ["a local", "a number channel", "a value of a pair"];
const ENDS: [(&str, i64); 4] = [
    ("at the lowest", LOWEST),
    ("at the highest", HIGHEST),
    ("below the lowest", LOWEST - 1),
    ("above the highest", HIGHEST + 1),
];

#[derive(Clone, Debug, Default)]
pub struct Met {
    pub calls: u64,
    /// By the call's name and the answer's number.
    answers: BTreeMap<(&'static str, u64), u64>,
    /// Accepted steps by the kind of the entry taken and the items of its channel.
    kinds: BTreeMap<(u64, usize), u64>,
    draws: BTreeMap<&'static str, u64>,
    /// What searches in pieces met.
    pieces: BTreeMap<&'static str, u64>,
    /// Accepted searches by the length of the run found, 0 for none.
    lengths: BTreeMap<u64, u64>,
    /// What searches met besides.
    searches: BTreeMap<&'static str, u64>,
    /// How runs ended, and what words they met.
    runs: BTreeMap<&'static str, u64>,
    /// By what stands at the place of a 29.
    unsteady: BTreeMap<&'static str, u64>,
    /// By what is at an end or past it and which end: states that a list judged, by 11 if it is past it.
    ends: BTreeMap<(&'static str, &'static str), u64>,
    specimens: BTreeSet<&'static str>,
}

impl Met {
    /// Notes an answer, the buffers as lent and those left.
    pub fn note(&mut self, call: &Call, given: &Given, lent: &Buffers, after: &Buffers) {
        let name = call.name();
        self.calls += 1;
        *self.answers.entry((name, given.number())).or_default() += 1;
        if let Given::Found(found) = given {
            *self.lengths.entry(found.length).or_default() += u64::from(found.number == 0);
            for what in searched::met(call, found, lent) {
                *self.searches.entry(what).or_default() += 1;
            }
        }
        if let Given::Ran(ran) = given {
            for what in ran::met(call, ran, lent) {
                *self.runs.entry(what).or_default() += 1;
            }
        }
        for what in pieces::met(call, given, lent, after) {
            *self.pieces.entry(what).or_default() += 1;
        }
        let Some(answer) = given.answer() else { return };
        if let (Call::Steady { text, .. }, 29) = (call, answer.number) {
            let bracket = text[answer.place as usize] == b'(';
            *self.unsteady.entry(UNSTEADY[usize::from(!bracket)]).or_default() += 1;
        }
        if let Call::Step { draw: Draw::Exactly(draw), .. } = call {
            self.note_draw(*draw, answer.total);
        }
        if name == "list" && answer.number != 1 {
            self.note_ends(&after.state, answer.number == 11);
        }
        if name == "step" && answer.number == 0 {
            let entry = &after.listing[answer.chosen as usize * ENTRY..][..ENTRY];
            *self.kinds.entry((entry[0], items(entry, lent))).or_default() += 1;
        }
    }

    fn note_draw(&mut self, draw: u64, total: u64) {
        let Some(last) = total.checked_sub(1) else { return };
        for (name, at) in DRAWS.into_iter().zip([0, last, total, u64::MAX]) {
            if draw == at {
                *self.draws.entry(name).or_default() += 1;
            }
        }
    }

    /// Notes the values of a state that are at an end of the range, or past it in a state that is none.
    fn note_ends(&mut self, state: &[i64], refused: bool) {
        for (what, value) in values(state) {
            for (end, number) in ENDS {
                if value == number && refused != (LOWEST..=HIGHEST).contains(&number) {
                    *self.ends.entry((what, end)).or_default() += 1;
                }
            }
        }
    }

    pub fn note_specimen(&mut self, name: &'static str) {
        self.specimens.insert(name);
    }

    /// What was never met: answers of each call, kinds of steps, draws at the ends, lengths of runs
    /// found and what else searches meet, ends of runs, places of a 29, values at the ends, these specimens.
    pub fn missing(&self, specimens: &[&'static str]) -> Vec<String> {
        let answers = ANSWERS.iter().flat_map(|(name, numbers)| numbers.iter().map(move |number| (*name, *number)));
        let answers = answers.filter(|answer| !self.answers.contains_key(answer));
        let kinds = CHANNEL_KINDS.flat_map(|kind| (1..=ITEMS).map(move |items| (kind, items)));
        let kinds = kinds.chain([(WAIT, 0)]).filter(|kind| !self.kinds.contains_key(kind));
        let draws = DRAWS.iter().filter(|name| !self.draws.contains_key(**name));
        let ends = VALUES.iter().flat_map(|what| ENDS.map(|(end, _)| (*what, end)));
        let ends = ends.filter(|end| !self.ends.contains_key(end));
        let lengths = LENGTHS.filter(|length| self.lengths.get(length).is_none_or(|times| *times == 0));
        let searches = searched::all().into_iter().filter(|what| !self.searches.contains_key(what));
        let runs = ran::all().into_iter().filter(|what| !self.runs.contains_key(what));
        let unsteady = UNSTEADY.into_iter().filter(|what| !self.unsteady.contains_key(what));
        let pieces = pieces::ALL.into_iter().filter(|what| !self.pieces.contains_key(what));
        let specimens = specimens.iter().filter(|name| !self.specimens.contains(**name));
        answers
            .map(|(name, number)| format!("{name} with {number}"))
            .chain(kinds.map(|(kind, items)| format!("a step of kind {kind} on {items} items")))
            .chain(lengths.map(|length| format!("a run of {length} entries found")))
            .chain(searches.chain(pieces).chain(runs).chain(unsteady).map(str::to_string))
            .chain(draws.map(|name| format!("draw: {name}")))
            .chain(ends.map(|(what, end)| format!("{what} {end}")))
            .chain(specimens.map(|name| format!("specimen: {name}")))
            .collect()
    }
}

/// How many items the channel of a listed entry has, 0 for a wait.
fn items(entry: &[u64], lent: &Buffers) -> usize {
    let read = model::read_buffer(&lent.model[..MODEL]).expect("a listed model");
    let sum = lent.state[FIRST_PROCESS + PROCESS * entry[1] as usize] as usize;
    read.sums[sum].branches[entry[2] as usize].action.items()
}

/// The numbers of a state that are values, each with what it is. The counts may be any.
fn values(state: &[i64]) -> Vec<(&'static str, i64)> {
    let used = |count: i64| usize::try_from(count).unwrap_or(0);
    let mut values = Vec::new();
    for process in state[FIRST_PROCESS..FIRST_PAIR].chunks(PROCESS).take(used(state[0])) {
        values.extend(process[1..=LOCALS].iter().map(|local| (VALUES[0], *local)));
    }
    for pair in state[FIRST_PAIR..].chunks_exact(PAIR).take(used(state[1])) {
        let numbers = pair[1..VALUE_COUNT].chunks(2).filter(|item| item[0] == 0);
        values.extend(numbers.map(|item| (VALUES[1], item[1])));
        values.extend(pair[FIRST_VALUE..].iter().map(|value| (VALUES[2], *value)));
    }
    values
}

impl fmt::Display for Met {
    fn fmt(&self, out: &mut fmt::Formatter) -> fmt::Result {
        writeln!(out, "{} calls", self.calls)?;
        for (name, _) in ANSWERS {
            let of_name = self.answers.iter().filter(|((call, _), _)| *call == name);
            let counts: Vec<String> = of_name.map(|((_, number), times)| format!("{number}:{times}")).collect();
            writeln!(out, "  {name} {}", counts.join(" "))?;
        }
        let kinds = self.kinds.iter().map(|((kind, items), times)| format!("{kind}({items}):{times}"));
        writeln!(out, "  kinds of accepted steps (items) {}", kinds.collect::<Vec<_>>().join(" "))?;
        let draws: Vec<String> = self.draws.iter().map(|(name, times)| format!("{name}:{times}")).collect();
        writeln!(out, "  draws at the ends {}", draws.join(" "))?;
        let lengths: Vec<String> = self.lengths.iter().map(|(length, times)| format!("{length}:{times}")).collect();
        writeln!(out, "  runs found (entries) {}", lengths.join(" "))?;
        let both = self.searches.iter().chain(&self.unsteady);
        let searches: Vec<String> = both.map(|(what, times)| format!("{what}:{times}")).collect();
        writeln!(out, "  searches {}", searches.join(", "))?;
        let runs: Vec<String> = self.runs.iter().map(|(what, times)| format!("{what}:{times}")).collect();
        writeln!(out, "  runs {}", runs.join(", "))?;
        let pieces: Vec<String> = self.pieces.iter().map(|(what, times)| format!("{what}:{times}")).collect();
        writeln!(out, "  {}", pieces.join(", "))?;
        let ends: Vec<String> = self.ends.iter().map(|((what, end), times)| format!("{what} {end}:{times}")).collect();
        writeln!(out, "  values {}", ends.join(", "))?;
        write!(out, "  specimens {}", self.specimens.len())
    }
}
