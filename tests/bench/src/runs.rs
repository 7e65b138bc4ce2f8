//! Runs of many timed steps in one call, and the same steps by listings and timed steps one by one.

use crate::models::Model;
use second::generate::{Buffers, Engine, Random};
use second::ran::{self, EVENT};
use second::{Clock, Ran, Running, LISTING, MODEL, STATE};
use std::time::Instant;

/// Steps of a run that doesn't end by itself.
const STEPS: usize = 1_000;
/// Words and waiting draws for each of them, more than enough: a step uses 1.5 and 4.3 in the mean, at most.
const WORDS: usize = 2;
const WAITING: usize = 6;
/// A model that runs for fewer steps runs so often that it takes about as many.
const LEAST: usize = 200;

/// A model opened on an engine, with words and waiting draws of a seed.
pub struct Start {
    buffers: Buffers,
    words: Vec<u64>,
    waiting: Vec<u16>,
}

/// Where a run or its single steps end.
#[derive(PartialEq)]
pub struct End {
    pub ran: Ran,
    state: Vec<i64>,
    clock: Clock,
    events: Vec<u64>,
}

impl Start {
    pub fn new(engine: &Engine, model: &Model, seed: u64) -> Start {
        let (buffers, opened) = Buffers::opened(engine, &model.text);
        assert_eq!(opened.number, 0, "{}", model.name);
        let mut random = Random::new(seed);
        let words = (0..WORDS * STEPS).map(|_| random.number()).collect();
        let waiting = (0..WAITING * STEPS).map(|_| random.number() as u16).collect();
        Start { buffers, words, waiting }
    }

    /// The end before any step.
    fn end(&self) -> End {
        let (state, clock) = (self.buffers.state[..STATE].to_vec(), self.buffers.clock);
        End { ran: Ran::default(), state, clock, events: vec![0; EVENT * STEPS] }
    }

    /// Nanoseconds a step of the run in one call, and its end.
    pub fn at_once(&self, engine: &Engine) -> (f64, End) {
        self.timed(|end| {
            let model = &self.buffers.model[..MODEL];
            let End { state, clock, events, .. } = end;
            let (words, waiting, limit) = (&self.words, &self.waiting, STEPS as u64);
            end.ran = (engine.run)(model, Running { state, words, waiting, events, limit, clock });
        })
    }

    /// Seconds of a run in one call that ends because nothing is left.
    pub fn whole(&self, engine: &Engine) -> f64 {
        let (time, end) = self.at_once(engine);
        assert_eq!(end.ran.number, 15);
        time * end.ran.steps as f64 / 1e9
    }

    /// The same of a listing and a timed step for each.
    pub fn one_by_one(&self, engine: &Engine) -> (f64, End) {
        let mut listing = vec![0; LISTING];
        self.timed(|end| self.steps(engine, &mut listing, end))
    }

    /// The mean of as many runs as make some steps.
    fn timed(&self, mut run: impl FnMut(&mut End)) -> (f64, End) {
        let (mut seconds, mut steps) = (0.0, 0);
        loop {
            let mut end = self.end();
            let start = Instant::now();
            run(&mut end);
            seconds += start.elapsed().as_secs_f64();
            steps += end.ran.steps;
            assert!(end.ran.steps > 0);
            if steps as usize >= LEAST {
                return (seconds * 1e9 / steps as f64, end);
            }
        }
    }

    fn steps(&self, engine: &Engine, listing: &mut [u64], end: &mut End) {
        let model = &self.buffers.model[..MODEL];
        let End { ran, state, clock, events } = end;
        for event in events.chunks_mut(EVENT) {
            let listed = (engine.list)(model, state, listing);
            (ran.number, ran.count, ran.total) = (listed.number, listed.count, listed.total);
            if listed.number == 0 && listed.total == 0 {
                ran.number = 15;
            }
            if ran.number != 0 {
                return;
            }
            let words = self.words[ran.words as usize..].iter().zip(1..);
            let mut draws = words.filter_map(|(&word, used)| Some((ran::draw(word, listed.total)?, used)));
            let (draw, used) = draws.next().expect("enough words");
            let (waiting, before) = (&self.waiting[ran.waiting as usize..], clock.draws);
            let taken = (engine.timed_step)(model, state, listing, waiting, draw, clock);
            ran.number = taken.number;
            if ran.number != 0 {
                return;
            }
            (ran.steps, ran.words, ran.waiting) = (ran.steps + 1, ran.words + used, ran.waiting + clock.draws - before);
            event[0] = clock.ticks;
            event[1..].copy_from_slice(&listing[(EVENT - 1) * taken.chosen as usize..][..EVENT - 1]);
        }
    }
}

#[cfg(test)]
mod tests {
    use super::*;
    use second::generate::SECOND;

    #[test]
    fn a_run_and_its_single_steps_end_alike() {
        second::model::keep_last();
        for model in crate::models::all() {
            let start = Start::new(&SECOND, &model, crate::SEED);
            let (at_once, one_by_one) = (start.at_once(&SECOND).1, start.one_by_one(&SECOND).1);
            assert!(at_once == one_by_one, "{}", model.name);
            assert!([0, 15].contains(&at_once.ran.number), "{}: {:?}", model.name, at_once.ran);
        }
    }
}
