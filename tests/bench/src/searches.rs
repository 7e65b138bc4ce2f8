//! Searches that walk some ten thousands of states: a wait that no model has, so that every run is walked, in one call or
//! in pieces.

use second::generate::{Buffers, Call, Draw, Engine, Random, RIGHT, SECOND};
use second::runs::Runs;
use second::{engine, Found, Progress, MODEL, SEARCH, STATE};
use std::time::Instant;

const NAME: &[u8] = b"never";
/// A piece walks so many states.
pub const PIECE: u64 = 1_000;

pub struct Search {
    pub name: &'static str,
    text: &'static str,
    /// It begins after so many steps.
    steps: usize,
    pub depth: u64,
}

pub const ALL: [Search; 2] = [
    Search { name: "chromosome", text: include_str!("../../../models/chromosome.bc"), steps: 100, depth: 3 },
    Search { name: "kinesin", text: include_str!("../../../models/kinesin.bc"), steps: 0, depth: 5 },
];

impl Search {
    /// An engine's buffers after the steps, whose draws come from this seed.
    pub fn begun(&self, engine: &Engine, seed: u64) -> Buffers {
        let (mut buffers, opened) = Buffers::opened(engine, self.text.as_bytes());
        assert_eq!(opened.number, 0, "{}", self.name);
        let mut random = Random::new(seed);
        for _ in 0..self.steps {
            let step = Call::Step { lengths: RIGHT, draw: Draw::Inside(random.number()) };
            let taken = buffers.make(engine, &step);
            assert_eq!(taken.map(|given| given.number()), Some(0), "{}", self.name);
        }
        buffers
    }

    /// The states walked: the ends of all runs up to the depth, the empty one's too.
    pub fn states(&self, seed: u64) -> usize {
        let buffers = self.begun(&SECOND, seed);
        let (model, state) = engine::held(&buffers.model[..MODEL], &buffers.state[..STATE]).expect("an open model");
        Runs::of(&model, &state, NAME, self.depth as usize).all.len()
    }

    /// The seconds that one search takes.
    pub fn seconds(&self, engine: &Engine, buffers: &Buffers) -> f64 {
        let start = Instant::now();
        let found = (engine.search)(&buffers.model[..MODEL], &buffers.state[..STATE], NAME, self.depth);
        let time = start.elapsed().as_secs_f64();
        assert_eq!(found, Found::default(), "{}", self.name);
        time
    }

    /// The seconds that the same search takes in pieces, and the states that it says it walked.
    pub fn seconds_in_pieces(&self, engine: &Engine, buffers: &Buffers) -> (f64, u64) {
        let (model, state, mut search) = (&buffers.model[..MODEL], &buffers.state[..STATE], vec![0; SEARCH]);
        let start = Instant::now();
        let begun = (engine.begin)(model, state, &mut search, NAME, self.depth);
        assert_eq!(begun.number, 0, "{}", self.name);
        let mut count = 0;
        loop {
            let progress = (engine.carry_on)(model, state, &mut search, PIECE);
            if progress.ended == 1 {
                let time = start.elapsed().as_secs_f64();
                assert_eq!(progress, Progress::ended(progress.count, Found::default()), "{}", self.name);
                return (time, progress.count);
            }
            count += PIECE;
            assert_eq!(progress, Progress::going(count), "{}", self.name);
        }
    }
}

#[cfg(test)]
mod tests {
    use super::*;

    #[test]
    fn each_walks_some_ten_thousands_of_states_to_no_end() {
        for search in ALL {
            let states = search.states(crate::SEED);
            assert!((10_000..100_000).contains(&states), "{}: {states}", search.name);
            search.seconds(&SECOND, &search.begun(&SECOND, crate::SEED));
        }
    }

    #[test]
    fn pieces_walk_as_many_states() {
        for search in ALL {
            let search = Search { depth: search.depth - 1, ..search };
            let (_, walked) = search.seconds_in_pieces(&SECOND, &search.begun(&SECOND, crate::SEED));
            assert_eq!(walked, search.states(crate::SEED) as u64, "{}", search.name);
        }
    }
}
