//! The calls.

use crate::clock::{self, Clock};
use crate::eval;
use crate::listing::{self, Entry, Kind, Listing, Offer, Offers};
use crate::model::{self, Item, Model};
use crate::saves::{self, Save, Saves};
use crate::state::{self, Process, State};
use crate::{Answer, LISTING, MODEL, REPORT, SAVES, SEARCH, STATE};
use std::rc::Rc;

/// What an opening is lent besides the text. It zeroes or fills all of it (decision A3).
pub struct Opening<'a> {
    pub model: &'a mut [u8],
    pub state: &'a mut [i64],
    pub saves: &'a mut [i64],
    pub search: &'a mut [i64],
    pub clock: &'a mut Clock,
}

impl Opening<'_> {
    /// The same, lent on.
    pub fn again(&mut self) -> Opening<'_> {
        let Opening { model, state, saves, search, clock } = self;
        Opening { model, state, saves, search, clock }
    }

    fn fits(&self) -> bool {
        let (model, state) = (self.model.len() == MODEL, self.state.len() == STATE);
        model && state && self.saves.len() == SAVES && self.search.len() == SEARCH
    }

    /// Makes it a fresh engine, which holds no model, has forgotten all saves and has no search under way.
    fn clear(&mut self) {
        self.model.fill(0);
        self.state.fill(0);
        self.saves.fill(0);
        self.search.fill(0);
        *self.clock = Clock::default();
    }
}

/// Reads a text. Questions 1 to 10.
pub fn open(text: &[u8], lent: Opening) -> Answer {
    opens(text, lent, |_| None)
}

/// Reads a text whose continuations leave at most one process each. Questions 1 to 10 and 29.
pub fn open_steady(text: &[u8], lent: Opening) -> Answer {
    opens(text, lent, |model| model.unsteady.map(|place| model::Refused { number: 29, place }))
}

/// Questions 1 to 10, then one more.
fn opens(text: &[u8], mut lent: Opening, last: fn(&Model) -> Option<model::Refused>) -> Answer {
    if !lent.fits() {
        return Answer::refusal(1);
    }
    lent.clear();
    let read = model::read(text).and_then(|read| {
        if state::processes_at_start(&read) > state::PROCESSES {
            return Err(model::Refused { number: 10, place: read.system_start });
        }
        last(&read).map_or(Ok(read), Err)
    });
    match read {
        Err(refused) => Answer { place: refused.place as u64, ..Answer::refusal(refused.number) },
        Ok(read) => {
            model::write_buffer(text, lent.model);
            state::write_buffer(&read, &state::start(&read), lent.state);
            Answer::default()
        }
    }
}

/// Lists what can happen next. Questions 1 and 11 to 14.
pub fn list(model: &[u8], state: &[i64], listing: &mut [u64]) -> Answer {
    match shown(model, state, listing, LISTING, Present::write_listing) {
        Err(refusal) => refusal,
        Ok(present) => present.answer(0),
    }
}

/// Sums up by definition what a list would list. Questions 1 and 11 to 14.
pub fn report(model: &[u8], state: &[i64], report: &mut [u64]) -> Answer {
    match shown(model, state, report, REPORT, Present::write_report) {
        Err(refusal) => refusal,
        Ok(present) => present.answer(0),
    }
}

/// Takes the step that the draw chooses. Questions 1 and 11 to 19.
pub fn step(model: &[u8], state: &mut [i64], listing: &mut [u64], draw: u64) -> Answer {
    let present = match shown(model, state, listing, LISTING, Present::write_listing) {
        Err(refusal) => return refusal,
        Ok(present) => present,
    };
    match present.chosen(draw) {
        Err(number) => present.answer(number),
        Ok((chosen, after)) => {
            state::write_buffer(&present.model, &after, state);
            Answer { chosen: chosen as u64, ..present.answer(0) }
        }
    }
}

/// Takes the step that the draw chooses, after a wait that the waiting draws give. Questions 1, 11 to 19 and 23 to 25.
pub fn timed_step(
    model: &[u8],
    state: &mut [i64],
    listing: &mut [u64],
    waiting: &[u16],
    draw: u64,
    clock: &mut Clock,
) -> Answer {
    let lengths = model.len() == MODEL && state.len() == STATE && listing.len() == LISTING;
    if lengths && !clock.is_in_range() {
        return Answer::refusal(11);
    }
    let present = match shown(model, state, listing, LISTING, Present::write_listing) {
        Err(refusal) => return refusal,
        Ok(present) => present,
    };
    let (chosen, after) = match present.chosen(draw) {
        Err(number) => return present.answer(number),
        Ok(both) => both,
    };
    let total = present.listing.total;
    match clock::wait(waiting).and_then(|wait| clock.after(&wait, total).ok_or(25)) {
        Err(number) => present.answer(number),
        Ok(later) => {
            *clock = later;
            state::write_buffer(&present.model, &after, state);
            Answer { chosen: chosen as u64, ..present.answer(0) }
        }
    }
}

/// Stores state and clock under a name. Questions 1, 11, 20 and 22.
pub fn save(model: &[u8], state: &[i64], saves: &mut [i64], name: &[u8], clock: Clock) -> Answer {
    let mut stored = match stored(model, state, saves, name, &clock) {
        Err(refusal) => return refusal,
        Ok(stored) => stored,
    };
    let Some(place) = stored.saves.place(name).or(stored.saves.first_empty()) else {
        return Answer::refusal(22);
    };
    stored.saves.places[place] = Some(Save { name: name.to_vec(), state: stored.state, clock });
    stored.saves.write_buffer(&stored.model, saves);
    Answer::default()
}

/// Makes state and clock that are saved under a name the present ones. Questions 1, 11, 20 and 21.
pub fn return_to(model: &[u8], state: &mut [i64], saves: &[i64], name: &[u8], clock: &mut Clock) -> Answer {
    let stored = match stored(model, state, saves, name, clock) {
        Err(refusal) => return refusal,
        Ok(stored) => stored,
    };
    match stored.saves.find(name) {
        None => Answer::refusal(21),
        Some(save) => {
            state::write_buffer(&stored.model, &save.state, state);
            *clock = save.clock;
            Answer::default()
        }
    }
}

/// Frees the place of a name. Questions 1, 11, 20 and 21.
pub fn forget(model: &[u8], state: &[i64], saves: &mut [i64], name: &[u8]) -> Answer {
    let mut stored = match stored(model, state, saves, name, &Clock::default()) {
        Err(refusal) => return refusal,
        Ok(stored) => stored,
    };
    match stored.saves.place(name) {
        None => Answer::refusal(21),
        Some(place) => {
            stored.saves.places[place] = None;
            stored.saves.write_buffer(&stored.model, saves);
            Answer::default()
        }
    }
}

/// What a save, a return or a forget finds.
struct Stored {
    model: Rc<Model>,
    state: State,
    saves: Saves,
}

/// Questions 1, 11 and 20 of a save, a return or a forget, which isn't lent a clock.
fn stored(model: &[u8], state: &[i64], saves: &[i64], name: &[u8], clock: &Clock) -> Result<Stored, Answer> {
    if model.len() != MODEL || state.len() != STATE || saves.len() != SAVES {
        return Err(Answer::refusal(1));
    }
    let held = || {
        let model = model::read_buffer(model)?;
        let state = state::read_buffer(&model, state)?;
        let saves = Saves::read_buffer(&model, saves)?;
        Some(Stored { model, state, saves })
    };
    let stored = held().filter(|_| clock.is_in_range()).ok_or(Answer::refusal(11))?;
    if !saves::is_name(name) {
        return Err(Answer::refusal(20));
    }
    Ok(stored)
}

/// A model, a state and its listing.
pub struct Present {
    pub model: Rc<Model>,
    pub state: State,
    offers: Offers,
    pub listing: Listing,
}

impl Present {
    /// An answer that carries entry count and total.
    fn answer(&self, number: u64) -> Answer {
        Answer { count: self.listing.entries.len() as u64, total: self.listing.total, ..Answer::refusal(number) }
    }

    /// Questions 15 to 19: the entry that a draw chooses, by its number, and the state after it is taken.
    fn chosen(&self, draw: u64) -> Result<(usize, State), u64> {
        if self.listing.total == 0 {
            return Err(15);
        }
        let chosen = self.listing.choose(draw).ok_or(16u64)?;
        Ok((chosen, taken(self, &self.listing.entries[chosen])?))
    }

    fn write_listing(&self, buffer: &mut [u64]) {
        listing::write_buffer(&self.listing, buffer);
    }

    fn write_report(&self, buffer: &mut [u64]) {
        listing::write_report(&self.listing, &self.model, &self.state, buffer);
    }
}

/// Questions 1 and 11 to 14. The buffer, which should have this length, is written, zeroed or left as the answer asks.
fn shown(
    model: &[u8],
    state: &[i64],
    buffer: &mut [u64],
    length: usize,
    write: fn(&Present, &mut [u64]),
) -> Result<Present, Answer> {
    if model.len() != MODEL || state.len() != STATE || buffer.len() != length {
        return Err(Answer::refusal(1));
    }
    let present = present(model, state);
    match &present {
        Ok(present) => write(present, buffer),
        Err(refusal) if refusal.number == 11 => {}
        Err(_) => buffer.fill(0),
    }
    present
}

/// Questions 11 to 14.
fn present(model: &[u8], state: &[i64]) -> Result<Present, Answer> {
    let (model, state) = held(model, state).ok_or(Answer::refusal(11))?;
    match listed(&model, state) {
        Ok(present) => Ok(present),
        Err(listing::Refused::NoValue { place, branch }) => {
            Err(Answer { place: place as u64, branch: branch as u64, ..Answer::refusal(12) })
        }
        Err(listing::Refused::TooManyEntries) => Err(Answer::refusal(13)),
        Err(listing::Refused::TotalTooLarge) => Err(Answer::refusal(14)),
    }
}

/// Question 11 of model and state: what the buffers hold.
pub fn held(model: &[u8], state: &[i64]) -> Option<(Rc<Model>, State)> {
    let model = model::read_buffer(model)?;
    let state = state::read_buffer(&model, state)?;
    Some((model, state))
}

/// Questions 12 to 14 of a state.
pub fn listed(model: &Rc<Model>, state: State) -> Result<Present, listing::Refused> {
    let offers = listing::offers(model, &state)?;
    let listing = listing::derive(&offers, &state)?;
    Ok(Present { model: model.clone(), state, offers, listing })
}

/// A part of a continuation with its values: what comes in the place of a process that acted.
enum Follower {
    Sum(Process),
    Call { definition: usize, values: Vec<i64> },
}

/// The state after an entry is taken, or the number of the question (17 to 19) with a no.
pub fn taken(present: &Present, entry: &Entry) -> Result<State, u64> {
    let Present { model, state, .. } = present;

    // 17: who acts, and what follows in the place of each.
    let mut followers = Vec::new();
    let sent = match offer(present, entry.place, entry.branch) {
        Offer::HandshakeSend(pair) => Some(pair),
        _ => None,
    };
    let bound = match entry.kind {
        Kind::BindingReceive => state.pairs[entry.pair].values(),
        _ => &[],
    };
    followers.push((entry.place, follow(present, entry.place, entry.branch, bound).ok_or(17u64)?));
    if let Some(pair) = sent {
        let (partner, branch) = (entry.partner, entry.partner_branch);
        followers.push((partner, follow(present, partner, branch, pair.values()).ok_or(17u64)?));
    }

    // 18: counted before any is made.
    let acting = followers.len();
    let new: usize = followers.iter().flat_map(|(_, list)| list).map(|one| one.processes(model)).sum();
    if state.processes.len() - acting + new > state::PROCESSES {
        return Err(18);
    }

    // 19
    let mut pairs = state.pairs.clone();
    match offer(present, entry.place, entry.branch) {
        Offer::Launch(pair) => {
            if let Err(place) = pairs.binary_search(pair) {
                pairs.insert(place, *pair);
            }
        }
        Offer::Kill(pair) => {
            if let Ok(place) = pairs.binary_search(pair) {
                pairs.remove(place);
            }
        }
        _ => {}
    }
    if pairs.len() > state::PAIRS {
        return Err(19);
    }

    let mut processes = Vec::new();
    for (place, process) in state.processes.iter().enumerate() {
        match followers.iter().find(|(acting, _)| *acting == place) {
            None => processes.push(process.clone()),
            Some((_, list)) => {
                for one in list {
                    one.write(model, &mut processes);
                }
            }
        }
    }
    Ok(State { processes, pairs })
}

/// What a listed branch offers.
fn offer(present: &Present, place: usize, branch: usize) -> &Offer {
    let open = present.offers[place][branch].as_ref();
    &open.expect("a listed branch is open").offer
}

/// The continuation of a branch, with its values, after `values` are bound to the names of its
/// receive, if it has any. `None`: some call argument has no value.
fn follow(present: &Present, place: usize, branch: usize, values: &[i64]) -> Option<Vec<Follower>> {
    let process = &present.state.processes[place];
    let branch = &present.model.sums[process.sum].branches[branch];
    let mut locals = process.locals.clone();
    if let model::Action::Receive(_, _, true) | model::Action::HandshakeReceive(_, _, true) = branch.action {
        locals.extend(values);
    }
    let mut followers = Vec::new();
    for item in &branch.continuation {
        followers.push(match item {
            Item::Sum(sum) => Follower::Sum(Process { sum: *sum, locals: locals.clone() }),
            Item::Call { definition, arguments } => {
                Follower::Call { definition: *definition, values: eval::expressions(arguments, &locals)? }
            }
        });
    }
    Some(followers)
}

impl Follower {
    fn processes(&self, model: &Model) -> usize {
        match self {
            Follower::Sum(_) => 1,
            Follower::Call { definition, .. } => model.processes_of(*definition),
        }
    }

    fn write(&self, model: &Model, processes: &mut Vec<Process>) {
        match self {
            Follower::Sum(process) => processes.push(process.clone()),
            Follower::Call { definition, values } => {
                for &sum in &model.definitions[*definition].sums {
                    processes.push(Process { sum, locals: values.clone() });
                }
            }
        }
    }
}
