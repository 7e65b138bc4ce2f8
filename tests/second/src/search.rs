//! Can this ever happen? (02, notes 8 and 9): the first of all runs to a wait. And a walk of the runs by length, then by
//! entry numbers.

use crate::engine::{self, Present};
use crate::listing::Entry;
use crate::model::{Action, Model};
use crate::runs::Runs;
use crate::state::State;
use crate::{MODEL, STATE};
use std::rc::Rc;

/// The greatest depth.
pub const DEPTH: usize = 8;

/// All that a search's result carries.
#[derive(Clone, Copy, Debug, Default, PartialEq, Eq)]
pub struct Found {
    /// 0, or the number of the refusal.
    pub number: u64,
    /// How many entries the run has; 0: there is none.
    pub length: u64,
    /// Their numbers, then zeros.
    pub run: [u64; DEPTH],
}

impl Found {
    pub fn refusal(number: u64) -> Found {
        Found { number, ..Found::default() }
    }

    /// An accepted search that found this run.
    pub fn run(entries: &[u64]) -> Found {
        let mut found = Found { length: entries.len() as u64, ..Found::default() };
        found.run[..entries.len()].copy_from_slice(entries);
        found
    }
}

/// Looks for the first run of at most this many entries whose last is a wait of this name. Questions 1, 11, 26 and 27.
pub fn search(model: &[u8], state: &[i64], name: &[u8], depth: u64) -> Found {
    if model.len() != MODEL || state.len() != STATE {
        return Found::refusal(1);
    }
    let Some((model, state)) = engine::held(model, state) else {
        return Found::refusal(11);
    };
    let Some(depth) = depth_of(depth) else {
        return Found::refusal(26);
    };
    let runs = Runs::of(&model, &state, name, depth);
    match runs.first() {
        Some(run) => Found::run(run),
        None if runs.refusals.is_empty() => Found::default(),
        None => Found::refusal(27),
    }
}

/// The depth, if it is from 1 to 8.
pub fn depth_of(depth: u64) -> Option<usize> {
    usize::try_from(depth).ok().filter(|depth| (1..=DEPTH).contains(depth))
}

/// A run, and the state at its end.
#[derive(Clone, Debug)]
pub struct Run {
    pub entries: Vec<u64>,
    pub state: State,
    /// The entry it ends with, in the state before it, and that state's process.
    last: Option<(Entry, usize)>,
}

/// Walks the runs of at most a depth over entries above weight zero, each taken unrefused: by length from zero, then by
/// entry numbers. Each length is walked from the start anew, so that a refusal that shorter runs met is met again.
pub struct Walk {
    model: Rc<Model>,
    start: State,
    depth: usize,
    /// The length of the runs that are walked now; `None` before the first.
    length: Option<usize>,
    /// The states along the run that is walked now, all but its end, each with the number of the entry that is next.
    along: Vec<(Present, usize)>,
    /// Was a refusal met: the listing of a run shorter than the depth, or one more entry of it?
    pub meets_refusal: bool,
}

/// What a walk comes upon next.
enum Event {
    Run(Run),
    Refusal,
    /// Neither.
    Nothing,
}

impl Walk {
    pub fn new(model: Rc<Model>, start: State, depth: usize) -> Walk {
        Walk { model, start, depth, length: None, along: Vec::new(), meets_refusal: false }
    }

    /// The walk as it goes on from a run, which must be one from the start.
    pub fn after(model: Rc<Model>, start: State, depth: usize, run: &[u64]) -> Option<Walk> {
        let mut walk = Walk::new(model, start, depth);
        walk.length = Some(run.len());
        let mut state = walk.start.clone();
        for &number in run {
            let present = engine::listed(&walk.model, state).ok()?;
            let number = usize::try_from(number).ok()?;
            let entry = present.listing.entries.get(number).filter(|entry| entry.weight > 0)?;
            state = engine::taken(&present, entry).ok()?;
            walk.along.push((present, number + 1));
        }
        Some(walk)
    }

    /// Is the last entry of a run a wait of this name?
    pub fn performs(&self, run: &Run, name: &[u8]) -> bool {
        let Some((entry, sum)) = &run.last else { return false };
        let action = &self.model.sums[*sum].branches[entry.branch].action;
        matches!(action, Action::Wait(wait) if wait == name)
    }

    /// Does the walk to so many runs more, or to its end, come upon more than so much?
    pub fn takes_long(&mut self, runs: u64, most: usize) -> bool {
        let mut left = runs;
        for _ in 0..most {
            match self.onward() {
                Some(Event::Run(_)) if left > 1 => left -= 1,
                Some(Event::Refusal | Event::Nothing) => {}
                _ => return false,
            }
        }
        true
    }

    /// `None`: at the end.
    fn onward(&mut self) -> Option<Event> {
        let Some((present, next)) = self.along.last_mut() else { return self.next_length() };
        let Some(entry) = present.listing.entries.get(*next).copied() else {
            self.along.pop();
            return Some(Event::Nothing);
        };
        *next += 1;
        if entry.weight == 0 {
            return Some(Event::Nothing);
        }
        let Ok(state) = engine::taken(present, &entry) else { return Some(Event::Refusal) };
        let sum = present.state.processes[entry.place].sum;
        if Some(self.along.len()) < self.length {
            return Some(self.go_deeper(state));
        }
        let entries = self.along.iter().map(|(_, next)| *next as u64 - 1).collect();
        Some(Event::Run(Run { entries, state, last: Some((entry, sum)) }))
    }

    /// The runs that are one longer, from the start.
    fn next_length(&mut self) -> Option<Event> {
        let length = self.length.map_or(0, |length| length + 1);
        if length > self.depth {
            return None;
        }
        self.length = Some(length);
        let start = self.start.clone();
        Some(match length {
            0 => Event::Run(Run { entries: Vec::new(), state: start, last: None }),
            _ => self.go_deeper(start),
        })
    }

    fn go_deeper(&mut self, state: State) -> Event {
        match engine::listed(&self.model, state) {
            Err(_) => Event::Refusal,
            Ok(present) => {
                self.along.push((present, 0));
                Event::Nothing
            }
        }
    }
}

impl Iterator for Walk {
    type Item = Run;

    fn next(&mut self) -> Option<Run> {
        loop {
            match self.onward()? {
                Event::Run(run) => return Some(run),
                Event::Refusal => self.meets_refusal = true,
                Event::Nothing => {}
            }
        }
    }
}
