//! Many timed steps in one call, whose choosing draws come from lent words of 64 bits.

use crate::clock::Clock;
use crate::listing::FIELDS;
use crate::{engine, LISTING, MODEL, STATE};

/// Numbers of an event: the ticks after a step, and the entry that it took.
pub const EVENT: usize = 1 + FIELDS;
/// How many values a word can have.
const WORDS: u128 = 1 << 64;

/// All that a run's result carries.
#[derive(Clone, Copy, Debug, Default, PartialEq, Eq)]
pub struct Ran {
    /// 0 if the limit, the room or the words ended it, else the number of the refusal.
    pub number: u64,
    /// Accepted steps, and so events.
    pub steps: u64,
    /// Words that they used, those turned away too.
    pub words: u64,
    /// Waiting draws that they used.
    pub waiting: u64,
    /// Entries and total of the last listing.
    pub count: u64,
    pub total: u64,
}

/// What a run is lent beside the model.
pub struct Running<'a> {
    pub state: &'a mut [i64],
    pub words: &'a [u64],
    pub waiting: &'a [u16],
    pub events: &'a mut [u64],
    pub limit: u64,
    pub clock: &'a mut Clock,
}

impl Running<'_> {
    /// The same once more, for a run that goes before something else.
    pub fn again(&mut self) -> Running<'_> {
        let Running { state, words, waiting, events, limit, clock } = self;
        Running { state, words, waiting, events, limit: *limit, clock }
    }
}

impl Ran {
    pub fn refusal(number: u64) -> Ran {
        Ran { number, ..Ran::default() }
    }
}

/// Words from this one on are turned away: the largest multiple of a total above zero that is at most 2^64.
pub fn bound(total: u64) -> u128 {
    WORDS / u128::from(total) * u128::from(total)
}

/// The choosing draw that a word gives, unless it is turned away.
pub fn draw(word: u64, total: u64) -> Option<u64> {
    (u128::from(word) < bound(total)).then(|| word % total)
}

/// The draw of the first word that isn't turned away, and how many words that takes.
fn first_draw(words: &[u64], total: u64) -> Option<(u64, u64)> {
    words.iter().zip(1..).find_map(|(&word, taken)| Some((draw(word, total)?, taken)))
}

/// Takes timed steps until there are as many as the limit, the room for events or the words end, or one is refused.
/// Questions 1, 11 to 15, 17 to 19 and 23 to 25.
pub fn run(model: &[u8], lent: Running) -> Ran {
    let Running { state, words, waiting, events, limit, clock } = lent;
    if model.len() != MODEL || state.len() != STATE {
        return Ran::refusal(1);
    }
    if engine::held(model, state).is_none() || !clock.is_in_range() {
        return Ran::refusal(11);
    }
    let mut ran = Ran::default();
    let mut listing = vec![0; LISTING];
    for event in events.chunks_exact_mut(EVENT) {
        if ran.steps == limit {
            break;
        }
        let listed = engine::list(model, state, &mut listing);
        (ran.number, ran.count, ran.total) = (listed.number, listed.count, listed.total);
        if ran.number == 0 && ran.total == 0 {
            ran.number = 15;
        }
        if ran.number != 0 {
            break;
        }
        let Some((draw, taken)) = first_draw(&words[ran.words as usize..], ran.total) else { break };
        let (left, before) = (&waiting[ran.waiting as usize..], clock.draws);
        let stepped = engine::timed_step(model, state, &mut listing, left, draw, clock);
        ran.number = stepped.number;
        if ran.number != 0 {
            break;
        }
        ran.steps += 1;
        ran.words += taken;
        ran.waiting += clock.draws - before;
        event[0] = clock.ticks;
        event[1..].copy_from_slice(&listing[FIELDS * stepped.chosen as usize..][..FIELDS]);
    }
    ran
}
