//! What the runs of a comparison must have met: each way to end, and words at the bound of a total; and a run's steps
//! one by one.

use second::generate::{Buffers, Call, Draw, Engine, RIGHT, SECOND};
use second::listing::FIELDS;
use second::ran::{bound, draw, EVENT};
use second::{engine, Clock, Ran, EVENTS, MODEL, STATE};

const CLOCK: &str = "11 for a run's clock alone";
const LIMIT_0: &str = "limit 0";
const LIMIT: &str = "a limit reached";
const NO_ROOM: &str = "no room for an event";
const ROOM: &str = "room for whole events filled";
const ROOM_AND_MORE: &str = "room filled but for some numbers";
const LONGEST: &str = "a run of 1,024 steps";
const NO_WORDS: &str = "no words";
const WORDS: &str = "all words used";
const TURNED_AT_ONCE: &str = "words turned away till they end";
const TURNED_LATER: &str = "words turned away till they end, after some steps";
/// Refusals: at once, and after some steps.
const REFUSALS: [(u64, &str, &str); 10] = [
    (12, "12 at once", "12 after some steps"),
    (13, "13 at once", "13 after some steps"),
    (14, "14 at once", "14 after some steps"),
    (15, "15 at once", "15 after some steps"),
    (17, "17 at once", "17 after some steps"),
    (18, "18 at once", "18 after some steps"),
    (19, "19 at once", "19 after some steps"),
    (23, "23 at once", "23 after some steps"),
    (24, "24 at once", "24 after some steps"),
    (25, "25 at once", "25 after some steps"),
];
const TURNED: &str = "a word turned away before a step";
const AT_BOUND: &str = "the least word that is turned away";
const BELOW_BOUND: &str = "the largest word that isn't";
const LAST_WORD: &str = "word 2^64 - 1 used";

/// All that must have been met.
pub fn all() -> Vec<&'static str> {
    let refusals = REFUSALS.iter().flat_map(|(_, at_once, later)| [*at_once, *later]);
    let ends = [LIMIT_0, LIMIT, NO_ROOM, ROOM, ROOM_AND_MORE, LONGEST, NO_WORDS, WORDS, TURNED_AT_ONCE, TURNED_LATER];
    ends.into_iter().chain(refusals).chain([CLOCK, TURNED, AT_BOUND, BELOW_BOUND, LAST_WORD]).collect()
}

/// What a run meets.
pub fn met(call: &Call, ran: &Ran, lent: &Buffers) -> Vec<&'static str> {
    let Call::Run { lengths, words, limit, .. } = call else { return Vec::new() };
    match ran.number {
        1 => return Vec::new(),
        11 => {
            let held = engine::held(&lent.model[..MODEL], &lent.state[..STATE]).is_some();
            return Vec::from_iter(held.then_some(CLOCK));
        }
        _ => {}
    }
    let mut met = vec![end(ran, *limit, lengths.events, words.len() as u64)];
    let turned = (ran.words > ran.steps).then_some(TURNED);
    let longest = (ran.steps as usize == EVENTS / EVENT).then_some(LONGEST);
    met.extend(turned.into_iter().chain(longest));
    met.extend(looked(call, ran, lent));
    met
}

/// The way that a run ended.
fn end(ran: &Ran, limit: u64, events: usize, words: u64) -> &'static str {
    if let Some((_, at_once, later)) = REFUSALS.iter().find(|(number, ..)| *number == ran.number) {
        return if ran.steps == 0 { at_once } else { later };
    }
    let room = (events / EVENT) as u64;
    match (limit, room) {
        (0, _) => LIMIT_0,
        _ if ran.steps == limit => LIMIT,
        (_, 0) => NO_ROOM,
        _ if ran.steps == room && events % EVENT == 0 => ROOM,
        _ if ran.steps == room => ROOM_AND_MORE,
        _ if words == 0 => NO_WORDS,
        _ if ran.words == words => WORDS,
        _ if ran.steps == 0 => TURNED_AT_ONCE,
        _ => TURNED_LATER,
    }
}

/// What the words that accepted steps look at are to the totals that they meet.
fn looked(call: &Call, ran: &Ran, lent: &Buffers) -> Vec<&'static str> {
    let mut met = Vec::new();
    for Single { total, words, .. } in singly(&SECOND, call, lent, ran.steps) {
        for word in words {
            let facts = [
                (u128::from(word) == bound(total), AT_BOUND),
                (u128::from(word) + 1 == bound(total), BELOW_BOUND),
                (word == u64::MAX && draw(word, total).is_some(), LAST_WORD),
            ];
            met.extend(facts.into_iter().filter(|(is, _)| *is).map(|(_, what)| what));
        }
    }
    met
}

/// A step of a run as a timed step by itself.
pub struct Single {
    /// The total of the state that it is taken in.
    pub total: u64,
    /// The words that it looks at, of which the last gives its draw.
    pub words: Vec<u64>,
    /// How many waiting draws it uses.
    pub waiting: usize,
    pub event: [u64; EVENT],
    /// State and clock after it.
    pub state: Vec<i64>,
    pub clock: Clock,
}

/// The first steps of a run, so many or up to one that isn't taken, by a listing and a timed step each.
pub fn singly(engine: &Engine, run: &Call, lent: &Buffers, steps: u64) -> Vec<Single> {
    let Call::Run { words, waiting, .. } = run else { return Vec::new() };
    let words = lent.words(words, waiting);
    let (mut words, mut waiting) = (&words[..], &waiting[..]);
    let mut buffers = Buffers { saves: Buffers::default().saves, ..lent.clone() };
    let mut taken = Vec::new();
    for _ in 0..steps {
        let Some(single) = single(engine, &mut buffers, words, waiting) else { break };
        (words, waiting) = (&words[single.words.len()..], &waiting[single.waiting..]);
        taken.push(single);
    }
    taken
}

fn single(engine: &Engine, buffers: &mut Buffers, words: &[u64], waiting: &[u16]) -> Option<Single> {
    let total = buffers.make(engine, &Call::List { lengths: RIGHT })?.answer()?.total;
    let (used, draw) = words.iter().zip(1..).find_map(|(&word, used)| Some((used, draw(word, total.max(1))?)))?;
    let (before, draw) = (buffers.clock.draws, Draw::Exactly(draw));
    let given = buffers.make(engine, &Call::Timed { lengths: RIGHT, draw, waiting: waiting.to_vec() })?;
    let answer = given.answer().filter(|answer| answer.number == 0)?;
    let mut event = [buffers.clock.ticks; EVENT];
    event[1..].copy_from_slice(&buffers.listing[FIELDS * answer.chosen as usize..][..FIELDS]);
    // A wrong engine may say that it used more than there are.
    let waiting = Some(buffers.clock.draws.checked_sub(before)? as usize).filter(|used| *used <= waiting.len())?;
    let (state, clock) = (buffers.state.clone(), buffers.clock);
    Some(Single { total, words: words[..used].to_vec(), waiting, event, state, clock })
}
