//! One run of a model, step by step.

use crate::engine::{Engine, Event, State};
use crate::random::Draws;

/// Words and waiting draws that are lent for a step at first. A step uses about one and four of them.
const WORDS: usize = 4;
const WAITING: usize = 64;
/// A step that this many words do not choose doesn't happen with an even generator.
const MOST: usize = 1 << 16;
/// Steps of a leap, at most.
const LONGEST_LEAP: u64 = 256;

/// Where a run is to end, if it hasn't before.
#[derive(Clone, Copy)]
pub struct Bounds {
    pub until: u64,
    pub steps: u64,
}

/// How a run ended.
#[derive(Clone, Copy, PartialEq, Eq)]
pub enum End {
    /// Nothing can happen any more.
    Still,
    /// The next step would be after its time.
    Late,
    /// It has its steps.
    Full,
    /// The next step is refused with this number.
    Refused { number: u64, steps: u64 },
}

pub struct Walk {
    pub engine: Engine,
    draws: Draws,
    /// The state before the last step.
    pub before: State,
    taken: u64,
    bounds: Bounds,
    /// How many steps the next leap tries.
    reach: u64,
}

impl Walk {
    pub fn new(start: &Engine, seed: u64, run: u64, bounds: Bounds) -> Walk {
        let (engine, before) = (start.clone(), start.state.clone());
        Walk { engine, draws: Draws::of_run(seed, run), before, taken: 0, bounds, reach: 1 }
    }

    /// Takes every step within the bounds. `before` is the last state then.
    pub fn last(&mut self) -> End {
        loop {
            if let Err(end) = self.change() {
                return end;
            }
        }
    }

    /// Takes a step within the bounds, or says how the run ended. `before` is the last state then.
    pub fn step(&mut self) -> Result<Event, End> {
        self.before.copy_from(&self.engine.state);
        self.next()
    }

    /// Takes steps up to the next launch or kill, and perhaps others after it: it alone parts the pairs from those of
    /// `before`.
    pub fn change(&mut self) -> Result<Event, End> {
        loop {
            self.before.copy_from(&self.engine.state);
            let events = self.leap()?;
            if let Some(change) = events.into_iter().find(|event| event.entry.is_change()) {
                return Ok(change);
            }
        }
    }

    /// Takes some steps from `before` on, of which at most one is a launch or a kill. Many in one call cost little more
    /// than one.
    fn leap(&mut self) -> Result<Vec<Event>, End> {
        let (limit, clock) = (self.reach.min(self.bounds.steps - self.taken), self.engine.clock);
        let (words, waiting) = self.draws.lend(WORDS * limit as usize, WAITING * limit as usize);
        let (mut ran, mut events) = self.engine.run(words, waiting, limit);
        let kept = kept(&events, self.bounds.until);
        if events[..kept].iter().all(|event| !event.entry.is_change()) {
            self.reach = LONGEST_LEAP.min(2 * self.reach);
        } else if kept < events.len() {
            self.reach = kept as u64;
        }
        if kept < events.len() {
            events.truncate(kept);
            self.engine.state.copy_from(&self.before);
            self.engine.clock = clock;
            ran = self.engine.run(words, waiting, kept as u64).0;
        }
        self.draws.used(ran.words, ran.waiting);
        self.taken += ran.steps;
        if events.is_empty() {
            events.push(self.next()?);
        }
        Ok(events)
    }

    /// One step.
    fn next(&mut self) -> Result<Event, End> {
        if self.taken == self.bounds.steps {
            return Err(End::Full);
        }
        let event = self.event()?;
        self.taken += 1;
        if event.ticks > self.bounds.until {
            return Err(End::Late);
        }
        Ok(event)
    }

    /// Lends more words where those so far were turned away, and more waiting draws where they ended.
    fn event(&mut self) -> Result<Event, End> {
        let (mut words, mut waiting) = (WORDS, WAITING);
        loop {
            let (choosing, waits) = self.draws.lend(words, waiting);
            let (ran, events) = self.engine.run(choosing, waits, 1);
            self.draws.used(ran.words, ran.waiting);
            match ran.number {
                0 if ran.steps == 1 => return Ok(events[0]),
                0 if words < MOST => words *= 2,
                23 if waiting < MOST => waiting *= 2,
                15 => return Err(End::Still),
                number => return Err(End::Refused { number, steps: self.taken }),
            }
        }
    }
}

/// How many of some events end by a time, and have at most one launch or kill: up to the first of several.
fn kept(events: &[Event], until: u64) -> usize {
    let timely = events.partition_point(|event| event.ticks <= until);
    let mut changes = (0..timely).filter(|&at| events[at].entry.is_change());
    match (changes.next(), changes.next()) {
        (Some(first), Some(_)) => first + 1,
        _ => timely,
    }
}
