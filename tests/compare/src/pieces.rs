//! What the searches in pieces of a comparison must have met.

use second::generate::{Buffers, Call, Given};
use second::pieces::{Progress, COUNT, COUNTED, MET};
use second::{engine, MODEL, SEARCH, STATE};

const GOES_ON: &str = "a search that goes on";
const NONE: &str = "a search that ends with none";
const RUN: &str = "a search that ends with a run";
const NOTHING: &str = "a search carried on by nothing";
const LAST: &str = "a search that ends with the last run it was given";
const PAST: &str = "a search that ends before the number it was given";
const MOST: &str = "a search given as many runs as there may be";
const TOO_MANY: &str = "28 for one run too many";
const NO_SEARCH: &str = "28 for no search";
const ANOTHER: &str = "another beginning";
const STEPPED: &str = "a step during a search";
const RETURNED: &str = "a return during a search";
const OPENED: &str = "an opening during a search";
const NOTED: &str = "a search that goes on after a refusal";
const EARLIER: &str = "27 for a refusal that an earlier call met";
const LATER: &str = "27 for a refusal that the last call met";
const DAMAGED: &str = "11 for the search alone";

const KEPT: &str = "a beginning refused during a search";
const RAN: &str = "a run of timed steps during a search";
const SEARCHED: &str = "a search in one call during a search";
const CLOSED: &str = "an opening refused during a search";
const LENGTHS: &str = "an opening of wrong lengths during a search";

/// All that must have been met.
pub const ALL: [&str; 22] = [
    GOES_ON, NONE, RUN, NOTHING, LAST, PAST, MOST, TOO_MANY, NO_SEARCH, ANOTHER, STEPPED, RETURNED, OPENED, NOTED,
    EARLIER, LATER, DAMAGED, KEPT, RAN, SEARCHED, CLOSED, LENGTHS,
];

/// What a call meets by the buffers as lent and those left.
pub fn met(call: &Call, given: &Given, lent: &Buffers, after: &Buffers) -> Vec<&'static str> {
    let under_way = lent.search[..SEARCH].iter().any(|&number| number != 0);
    let taken = given.number() == 0 && under_way;
    match (call, given) {
        (Call::Step { .. } | Call::Timed { .. }, _) if taken => vec![STEPPED],
        (Call::Return { .. }, _) if taken => vec![RETURNED],
        (Call::Open { .. } | Call::Steady { .. }, _) if taken => vec![OPENED],
        (Call::Open { .. } | Call::Steady { .. }, _) if under_way => {
            vec![if given.number() == 1 { LENGTHS } else { CLOSED }]
        }
        (Call::Run { .. }, Given::Ran(ran)) if taken && ran.steps > 0 => vec![RAN],
        (Call::Search { .. }, _) if taken => vec![SEARCHED],
        (Call::Begin { .. }, _) if taken => vec![ANOTHER],
        (Call::Begin { .. }, _) if under_way && given.number() == 26 => vec![KEPT],
        (Call::Begin { .. } | Call::Carry { .. }, _) if given.number() == 11 => {
            Vec::from_iter(engine::held(&lent.model[..MODEL], &lent.state[..STATE]).map(|_| DAMAGED))
        }
        (&Call::Carry { number, .. }, Given::Progress(progress)) => carried(number, progress, lent, after, under_way),
        _ => Vec::new(),
    }
}

fn carried(number: u64, progress: &Progress, lent: &Buffers, after: &Buffers, under_way: bool) -> Vec<&'static str> {
    let Progress { number: refusal, count, ended, length, .. } = *progress;
    let going = [0, 27].contains(&refusal);
    let before = lent.search[COUNT] as u64;
    let (walked, asked) = (count.wrapping_sub(before), before.saturating_add(number));
    let [met, meets] = [lent, after].map(|buffers| buffers.search[MET] == 1);
    let facts = [
        (going && ended == 0 && number > 0, GOES_ON),
        (going && ended == 0 && number == 0, NOTHING),
        (refusal == 0 && ended == 1 && length == 0, NONE),
        (refusal == 0 && ended == 1 && length > 0, RUN),
        (going && ended == 1 && length == 0 && walked == number, LAST),
        (going && ended == 1 && walked < number, PAST),
        (going && asked == COUNTED, MOST),
        (refusal == 28 && under_way && asked == COUNTED + 1, TOO_MANY),
        (refusal == 28 && !under_way, NO_SEARCH),
        (going && ended == 0 && !met && meets, NOTED),
        (refusal == 27 && met, EARLIER),
        (refusal == 27 && !met, LATER),
    ];
    facts.into_iter().filter(|(is, _)| *is).map(|(_, what)| what).collect()
}
