//! The same calls on two engines, each with buffers of its own.

use crate::met::Met;
use crate::ran;
use second::generate::{Buffer, Buffers, Call, Depth, Engine, Given};
use second::ran::EVENT;
use second::{Clock, Found, LISTING, MODEL, REPORT, SAVES, SEARCH, STATE};
use std::collections::BTreeMap;
use std::fmt;

/// What a difference is in.
#[derive(Clone, Copy, Debug, PartialEq, Eq)]
pub enum Place {
    Answer,
    Model,
    State,
    Listing,
    Report,
    Saves,
    Events,
    Clock,
    Search,
}

/// The first difference between two engines on a list of calls.
#[derive(Clone, Debug)]
pub struct Difference {
    /// Which call of the list, from 0.
    pub call: usize,
    pub place: Place,
    /// What each engine gave, in words.
    pub what: String,
    /// The calls up to this one, each draw as the number it was.
    pub made: Vec<Call>,
}

impl fmt::Display for Difference {
    fn fmt(&self, out: &mut fmt::Formatter) -> fmt::Result {
        write!(out, "call {} of the list: {}", self.call, self.what)
    }
}

/// Makes the calls on both engines, from fresh buffers, until they differ. Searches that would walk very many runs, as
/// those of a list being shrunk may, are left out. `tried` is the engine
/// under trial, `oracle` the one it is held to; what the oracle answers is noted in `met`.
pub fn run(tried: &Engine, oracle: &Engine, calls: &[Call], met: &mut Met) -> Result<(), Difference> {
    let (mut left, mut right) = (Buffers::default(), Buffers::default());
    let mut made = Vec::new();
    let mut saved = Saved::default();
    let mut begun = Begun::default();
    let mut profile = Profile::default();
    for (number, call) in calls.iter().enumerate() {
        if right.walks_many(call) {
            continue;
        }
        let call = right.exact(call);
        made.push(call.clone());
        if call.lengths().is_none() {
            left.make(tried, &call);
            right.make(oracle, &call);
            saved.note_change(&call);
            begun.note_change(&call);
            profile.steady = false;
            continue;
        }
        let lent = as_lent(&right, &call);
        let answers = (left.make(tried, &call), right.make(oracle, &call));
        let (Some(first), Some(second)) = answers else { continue };
        let fault = differs(&call, &first, &left, &second, &right)
            .or_else(|| kept(&call, &lent, &first, &left))
            .or_else(|| saved.note(&call, &first, &left))
            .or_else(|| untimed(oracle, &call, &lent, &first, &left))
            .or_else(|| unlike_steps(tried, &call, &lent, &first, &left))
            .or_else(|| begun.note(oracle, &call, &first, &left))
            .or_else(|| profile.note(&call, &first, &lent, &left));
        if let Some((place, what)) = fault {
            return Err(Difference { call: number, place, what, made });
        }
        met.note(&call, &second, &lent, &right);
    }
    Ok(())
}

/// The buffers before a call. Saves and events, which are long, only if it is lent them.
fn as_lent(buffers: &Buffers, call: &Call) -> Buffers {
    let saves = if call.lends(Buffer::Saves) { buffers.saves.clone() } else { Vec::new() };
    let events = if call.lends(Buffer::Events) { buffers.events.clone() } else { Vec::new() };
    let Buffers { model, state, listing, report, search, clock, .. } = buffers;
    let (model, state, listing, report) = (model.clone(), state.clone(), listing.clone(), report.clone());
    Buffers { model, state, listing, report, saves, events, search: search.clone(), clock: *clock }
}

/// An accepted timed step alters state and listing as a step with its choosing draw does (02, note 4).
fn untimed(engine: &Engine, call: &Call, lent: &Buffers, given: &Given, after: &Buffers) -> Option<(Place, String)> {
    let Call::Timed { lengths, draw, .. } = call else { return None };
    if given.number() != 0 {
        return None;
    }
    let mut plain = lent.clone();
    (plain.saves, plain.events) = (Buffers::default().saves, Buffers::default().events);
    let stepped = plain.make(engine, &Call::Step { lengths: *lengths, draw: *draw });
    let alike = stepped == Some(*given) && plain.state == after.state && plain.listing == after.listing;
    (!alike).then(|| (Place::State, "a timed step isn't the step with its draw".to_string()))
}

/// A run's steps are the timed steps of the same engine by the same draws, one after the other.
fn unlike_steps(
    engine: &Engine,
    call: &Call,
    lent: &Buffers,
    given: &Given,
    after: &Buffers,
) -> Option<(Place, String)> {
    let Given::Ran(ran) = given else { return None };
    let steps = ran::singly(engine, call, lent, ran.steps);
    let events: Vec<u64> = steps.iter().flat_map(|step| step.event).collect();
    if events != after.events[..EVENT * ran.steps as usize] {
        return Some((Place::Events, "the events aren't what the timed steps give".to_string()));
    }
    let words: usize = steps.iter().map(|step| step.words.len()).sum();
    let waiting: usize = steps.iter().map(|step| step.waiting).sum();
    let (state, clock) = steps.last().map_or((&lent.state, lent.clock), |step| (&step.state, step.clock));
    let alike = *state == after.state && clock == after.clock;
    let used = (words as u64, waiting as u64) == (ran.words, ran.waiting);
    (!alike || !used).then(|| (Place::State, "a run isn't its timed steps".to_string()))
}

/// State and clock of the latest accepted save under each name since the last opening, by the list of calls alone.
#[derive(Default)]
struct Saved {
    /// `None` once the saves were changed by hand.
    states: Option<BTreeMap<Vec<u8>, (Vec<i64>, Clock)>>,
}

impl Saved {
    fn note_change(&mut self, change: &Call) {
        if let Call::SetSaves { .. } = change {
            self.states = None;
        }
    }

    /// The state found after a return is that of the latest accepted save under that name (02, note 2).
    fn note(&mut self, call: &Call, given: &Given, after: &Buffers) -> Option<(Place, String)> {
        if call.opens() && given.number() != 1 {
            self.states = Some(BTreeMap::new());
        }
        let states = self.states.as_mut().filter(|_| given.number() == 0)?;
        let now = || (after.state[..STATE].to_vec(), after.clock);
        match call {
            Call::Save { name, .. } => {
                states.insert(name.clone(), now());
            }
            Call::Forget { name, .. } => {
                states.remove(name);
            }
            Call::Return { name, .. } if states.get(name) != Some(&now()) => {
                return Some((Place::State, "state and clock aren't those of the latest save".to_string()));
            }
            _ => {}
        }
        None
    }
}

/// The search that the list of calls alone has begun: what it was asked, and how many runs it walked.
#[derive(Default)]
struct Begun {
    /// `None` once it was changed by hand, too.
    asked: Option<Asked>,
}

struct Asked {
    model: Vec<u8>,
    state: Vec<i64>,
    name: Vec<u8>,
    depth: u64,
    walked: u64,
}

impl Begun {
    /// What another model, or another number, makes of it is asked of the two engines alone.
    fn note_change(&mut self, change: &Call) {
        if let Call::SetSearch { .. } | Call::EndSearch | Call::SetModel { .. } = change {
            self.asked = None;
        }
    }

    /// A call walks as many runs as it is given unless the search ends in it, and then it answers as a search in one call
    /// does at the state where it began (02, note 10).
    fn note(&mut self, oracle: &Engine, call: &Call, given: &Given, after: &Buffers) -> Option<(Place, String)> {
        match (call, given) {
            _ if call.opens() && given.number() != 1 => self.asked = None,
            (Call::Begin { name, depth: Depth::Exactly(depth), .. }, _) if given.number() == 0 => {
                let (model, state) = (after.model[..MODEL].to_vec(), after.state[..STATE].to_vec());
                self.asked = Some(Asked { model, state, name: name.clone(), depth: *depth, walked: 0 });
            }
            (Call::Carry { number, .. }, Given::Progress(progress)) if [0, 27].contains(&progress.number) => {
                let asked = self.asked.as_mut()?;
                asked.walked = asked.walked.saturating_add(*number);
                if progress.ended == 0 && progress.count != asked.walked {
                    return Some((
                        Place::Answer,
                        format!("{} runs were walked and not {}", progress.count, asked.walked),
                    ));
                }
                if progress.ended == 1 {
                    let whole = (oracle.search)(&asked.model, &asked.state, &asked.name, asked.depth);
                    let pieces = Found { number: progress.number, length: progress.length, run: progress.run };
                    self.asked = None;
                    return (whole != pieces)
                        .then(|| (Place::Answer, format!("the search in one call gives {whole:?}")));
                }
            }
            _ => {}
        }
        None
    }
}

/// Was the text opened under the steady profile, and nothing changed by hand since?
#[derive(Default)]
struct Profile {
    steady: bool,
}

impl Profile {
    /// Up to the next opening no call meets 18, and no step raises the number of processes (02, note 11).
    fn note(&mut self, call: &Call, given: &Given, lent: &Buffers, after: &Buffers) -> Option<(Place, String)> {
        if call.opens() && given.number() != 1 {
            self.steady = given.number() == 0 && matches!(call, Call::Steady { .. });
        }
        let steps = matches!(call, Call::Step { .. } | Call::Timed { .. } | Call::Run { .. });
        if self.steady && given.number() == 18 {
            return Some((Place::Answer, "18 under the steady profile".to_string()));
        }
        let raises = self.steady && steps && after.state[0] > lent.state[0];
        raises.then(|| (Place::State, "a step raises the number of processes".to_string()))
    }
}

/// The first difference between two answers and the buffers left with them.
fn differs(call: &Call, first: &Given, left: &Buffers, second: &Given, right: &Buffers) -> Option<(Place, String)> {
    if first != second {
        return Some((Place::Answer, format!("the answer is {first:?} and not {second:?}")));
    }
    if left.clock != right.clock {
        return Some((Place::Clock, format!("the clock is {:?} and not {:?}", left.clock, right.clock)));
    }
    part(Place::State, "state", &left.state, &right.state)
        .or_else(|| part(Place::Listing, "listing", &left.listing, &right.listing))
        .or_else(|| part(Place::Report, "report", &left.report, &right.report))
        .or_else(|| part(Place::Model, "model", &left.model, &right.model))
        .or_else(|| part(Place::Search, "search", &left.search, &right.search))
        .or_else(|| call.lends(Buffer::Saves).then(|| part(Place::Saves, "saves", &left.saves, &right.saves))?)
        .or_else(|| call.lends(Buffer::Events).then(|| part(Place::Events, "events", &left.events, &right.events))?)
}

fn part<T: PartialEq + fmt::Display>(place: Place, name: &str, left: &[T], right: &[T]) -> Option<(Place, String)> {
    // The whole first: this is the usual case, and fast.
    if left == right {
        return None;
    }
    let at = left.iter().zip(right).position(|(one, other)| one != other)?;
    Some((place, format!("number {at} of the {name} is {} and not {}", left[at], right[at])))
}

/// What 01 and 02 say of the buffers of a call by its number alone: what must be as lent, what zero.
fn kept(call: &Call, lent: &Buffers, given: &Given, after: &Buffers) -> Option<(Place, String)> {
    let number = given.number();
    let opening = call.opens();
    let ran = if let Given::Ran(ran) = given { ran.steps as usize } else { 0 };
    let timed = ran > 0 || number == 0 && matches!(call, Call::Timed { .. } | Call::Return { .. });
    let moves = timed || (number == 0 && matches!(call, Call::Step { .. }));
    let saves = number == 0 && matches!(call, Call::Save { .. } | Call::Forget { .. });
    let (lent_saves, lent_events) = (call.lends(Buffer::Saves), call.lends(Buffer::Events));
    let past = (EVENT * ran).min(after.events.len());
    let saves_as_lent = lent_saves && !saves && (!opening || number == 1);
    let forgets = opening && number != 1;
    // Carried on by nothing, it stays as it is (decision A60).
    let walks = matches!(call, Call::Begin { .. } | Call::Carry { number: 1.., .. });
    let search_as_lent = !(walks && [0, 27].contains(&number)) && !forgets;
    let ended = matches!(given, Given::Progress(progress) if progress.ended == 1);
    let closes = opening && number > 1;
    let model_as_lent = !opening || number == 1;
    let state_as_lent = !moves && (!opening || number == 1);
    let faults = [
        (model_as_lent && after.model != lent.model, Place::Model, "changes the model"),
        (state_as_lent && after.state != lent.state, Place::State, "changes the state"),
        (closes && !zero(&after.model[..MODEL]), Place::Model, "leaves a part of the model"),
        (closes && !zero(&after.state[..STATE]), Place::State, "leaves a part of the state"),
        (!timed && !forgets && after.clock != lent.clock, Place::Clock, "changes the clock"),
        (forgets && after.clock != Clock::default(), Place::Clock, "leaves a part of the clock"),
        (search_as_lent && after.search != lent.search, Place::Search, "changes the search"),
        ((forgets || ended) && !zero(&after.search[..SEARCH]), Place::Search, "leaves a part of the search"),
        (after.search[SEARCH..] != lent.search[SEARCH..], Place::Search, "writes past the search"),
        (saves_as_lent && after.saves != lent.saves, Place::Saves, "changes the saves"),
        (forgets && !zero(&after.saves[..SAVES]), Place::Saves, "leaves a part of the saves"),
        (lent_saves && after.saves[SAVES..] != lent.saves[SAVES..], Place::Saves, "writes past the saves"),
        (lent_events && after.events[past..] != lent.events[past..], Place::Events, "writes past its events"),
        (after.model[MODEL..] != lent.model[MODEL..], Place::Model, "writes past the model"),
        (after.state[STATE..] != lent.state[STATE..], Place::State, "writes past the state"),
    ];
    let listing = (&lent.listing[..], &after.listing[..], LISTING);
    let report = (&lent.report[..], &after.report[..], REPORT);
    let (place, what) = faults
        .into_iter()
        .find(|(fault, ..)| *fault)
        .map(|(_, place, what)| (place, what))
        .or_else(|| shown(call.lends(Buffer::Listing), number, listing, Place::Listing))
        .or_else(|| shown(call.lends(Buffer::Report), number, report, Place::Report))
        .or_else(|| unequal(call, given, &after.report))?;
    // Both do, if they don't differ.
    Some((place, format!("an engine {what} with answer {number}")))
}

/// The same of a buffer that some calls fill: as it was lent, as it is after the call, its right length.
fn shown(fills: bool, number: u64, buffer: (&[u64], &[u64], usize), place: Place) -> Option<(Place, &'static str)> {
    let (lent, after, length) = buffer;
    let as_lent = !fills || number == 1 || number == 11;
    if as_lent && after != lent {
        return Some((place, "changes what it should not fill"));
    }
    if fills && (12..=14).contains(&number) && !zero(&after[..length]) {
        return Some((place, "leaves a part of what it should zero"));
    }
    (after[length..] != lent[length..]).then_some((place, "writes past what it fills"))
}

/// The subtotals of an accepted report add up to the total.
fn unequal(call: &Call, given: &Given, report: &[u64]) -> Option<(Place, &'static str)> {
    let answer = given.answer()?;
    let sum: u128 = report[..REPORT].iter().map(|&subtotal| u128::from(subtotal)).sum();
    let reported = matches!(call, Call::Report { .. }) && answer.number == 0;
    (reported && sum != u128::from(answer.total)).then_some((Place::Report, "reports what isn't the total"))
}

fn zero<T: PartialEq + From<u8>>(numbers: &[T]) -> bool {
    numbers.iter().all(|number| *number == T::from(0))
}
