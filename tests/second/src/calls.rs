//! Lists of calls: what a call asks for, the calls of any engine, and the buffers they are made on.

use crate::clock::Clock;
use crate::engine;
use crate::independent;
use crate::listing::FIELDS;
use crate::pieces;
use crate::ran::{self, Ran, Running, EVENT};
use crate::search::{self, Walk};
use crate::state::{Channel, Item, Pair, FIRST_PAIR, FIRST_PROCESS, PAIR, PROCESS};
use crate::{Answer, Found, Opening, Progress, EVENTS, LISTING, MODEL, REPORT, SAVES, SEARCH, STATE};

/// The lent buffers. All have a length they should have, but for a run's events, which may have any.
#[derive(Clone, Copy, Debug, PartialEq, Eq)]
pub enum Buffer {
    Model,
    State,
    Listing,
    Report,
    Saves,
    Events,
    Search,
}

/// Lengths of what is lent. Those of buffers that a call isn't lent are the right ones.
#[derive(Clone, Copy, Debug, PartialEq, Eq)]
pub struct Lengths {
    pub model: usize,
    pub state: usize,
    pub listing: usize,
    pub report: usize,
    pub saves: usize,
    pub events: usize,
    pub search: usize,
}

pub const RIGHT: Lengths = Lengths {
    model: MODEL,
    state: STATE,
    listing: LISTING,
    report: REPORT,
    saves: SAVES,
    events: EVENTS,
    search: SEARCH,
};

/// A draw, given by what it is to the total.
#[derive(Clone, Copy, Debug, PartialEq, Eq)]
pub enum Draw {
    Exactly(u64),
    /// This number divided by the total: the rest.
    Inside(u64),
    /// The total less 1.
    Last,
    Total,
}

/// A word of a run, given by what it is to the total that it meets.
#[derive(Clone, Copy, Debug, PartialEq, Eq)]
pub enum Word {
    Exactly(u64),
    /// The first word that is turned away, or this much more or less, as near as there is one.
    Bound(i64),
}

/// A search that walks more runs takes too long.
const MANY: usize = 3_000;
/// So does one that comes upon more entries, one after the other.
const FAR: usize = 60_000;

/// A depth of a search, given by what it makes of it.
#[derive(Clone, Copy, Debug, PartialEq, Eq)]
pub enum Depth {
    Exactly(u64),
    /// The greatest up to this one for which at most so many runs are walked.
    Within(u64, usize),
}

/// What a call gives back.
#[derive(Clone, Copy, Debug, PartialEq, Eq)]
pub enum Given {
    Answer(Answer),
    Found(Found),
    Ran(Ran),
    Progress(Progress),
}

impl Given {
    pub fn number(&self) -> u64 {
        match self {
            Given::Answer(answer) => answer.number,
            Given::Found(found) => found.number,
            Given::Ran(ran) => ran.number,
            Given::Progress(progress) => progress.number,
        }
    }

    /// The answer of a call that gives one: every call but a search, one that carries it on, and a run.
    pub fn answer(&self) -> Option<&Answer> {
        match self {
            Given::Answer(answer) => Some(answer),
            Given::Found(_) | Given::Ran(_) | Given::Progress(_) => None,
        }
    }

    /// All its numbers, in the order of the C interface.
    pub fn numbers(&self) -> Vec<u64> {
        match self {
            Given::Answer(Answer { number, place, branch, count, total, chosen }) => {
                vec![*number, *place, *branch, *count, *total, *chosen]
            }
            Given::Found(Found { number, length, run }) => [&[*number, *length], &run[..]].concat(),
            Given::Ran(Ran { number, steps, words, waiting, count, total }) => {
                vec![*number, *steps, *words, *waiting, *count, *total]
            }
            Given::Progress(Progress { number, count, ended, length, run }) => {
                [&[*number, *count, *ended, *length], &run[..]].concat()
            }
        }
    }
}

impl From<Answer> for Given {
    fn from(answer: Answer) -> Given {
        Given::Answer(answer)
    }
}

#[derive(Clone, Debug)]
pub enum Call {
    Open {
        text: Vec<u8>,
        lengths: Lengths,
    },
    Steady {
        text: Vec<u8>,
        lengths: Lengths,
    },
    List {
        lengths: Lengths,
    },
    Step {
        lengths: Lengths,
        draw: Draw,
    },
    Timed {
        lengths: Lengths,
        draw: Draw,
        waiting: Vec<u16>,
    },
    Report {
        lengths: Lengths,
    },
    Save {
        lengths: Lengths,
        name: Vec<u8>,
    },
    Return {
        lengths: Lengths,
        name: Vec<u8>,
    },
    Forget {
        lengths: Lengths,
        name: Vec<u8>,
    },
    Search {
        lengths: Lengths,
        name: Vec<u8>,
        depth: Depth,
    },
    Run {
        lengths: Lengths,
        words: Vec<Word>,
        waiting: Vec<u16>,
        limit: u64,
    },
    Begin {
        lengths: Lengths,
        name: Vec<u8>,
        depth: Depth,
    },
    Carry {
        lengths: Lengths,
        number: u64,
    },
    // Changes of the buffers between calls.
    SetState {
        place: usize,
        number: i64,
    },
    SetModel {
        place: usize,
        byte: u8,
    },
    SetSaves {
        place: usize,
        number: i64,
    },
    SetSearch {
        place: usize,
        number: i64,
    },
    /// No search is under way.
    EndSearch,
    SetClock(Clock),
    /// The pairs of number channel 5 with one value from `first` on.
    Light {
        count: usize,
        first: i64,
    },
    /// This many copies of the first process.
    Crowd {
        count: usize,
    },
    /// Listing, report and events hold this number everywhere.
    Fill {
        number: u64,
    },
}

impl Call {
    /// What is lent. `None`: it is no call but a change of the buffers.
    pub fn lengths(&self) -> Option<&Lengths> {
        match self {
            Call::Open { lengths, .. }
            | Call::Steady { lengths, .. }
            | Call::List { lengths }
            | Call::Step { lengths, .. }
            | Call::Timed { lengths, .. }
            | Call::Report { lengths }
            | Call::Save { lengths, .. }
            | Call::Return { lengths, .. }
            | Call::Forget { lengths, .. }
            | Call::Search { lengths, .. }
            | Call::Run { lengths, .. }
            | Call::Begin { lengths, .. }
            | Call::Carry { lengths, .. } => Some(lengths),
            _ => None,
        }
    }

    /// Is it an opening, of either kind?
    pub fn opens(&self) -> bool {
        matches!(self, Call::Open { .. } | Call::Steady { .. })
    }

    /// Is it a change of one number of a buffer, which often spoils it?
    pub fn spoils(&self) -> bool {
        matches!(self, Call::SetState { .. } | Call::SetModel { .. } | Call::SetSaves { .. } | Call::SetSearch { .. })
    }

    /// Is the call lent this buffer? A change of the buffers is lent none.
    pub fn lends(&self, buffer: Buffer) -> bool {
        let others: &[Buffer] = match self {
            Call::Open { .. } | Call::Steady { .. } => &[Buffer::Saves, Buffer::Search],
            Call::List { .. } | Call::Step { .. } | Call::Timed { .. } => &[Buffer::Listing],
            Call::Report { .. } => &[Buffer::Report],
            Call::Save { .. } | Call::Return { .. } | Call::Forget { .. } => &[Buffer::Saves],
            Call::Search { .. } => &[],
            Call::Run { .. } => &[Buffer::Events],
            Call::Begin { .. } | Call::Carry { .. } => &[Buffer::Search],
            _ => return false,
        };
        matches!(buffer, Buffer::Model | Buffer::State) || others.contains(&buffer)
    }

    /// The call with these lengths, but the right ones for buffers that it isn't lent.
    pub fn with(mut self, lent: Lengths) -> Call {
        let of = |buffer, lent, right| if self.lends(buffer) { lent } else { right };
        let trimmed = Lengths {
            model: of(Buffer::Model, lent.model, MODEL),
            state: of(Buffer::State, lent.state, STATE),
            listing: of(Buffer::Listing, lent.listing, LISTING),
            report: of(Buffer::Report, lent.report, REPORT),
            saves: of(Buffer::Saves, lent.saves, SAVES),
            events: of(Buffer::Events, lent.events, EVENTS),
            search: of(Buffer::Search, lent.search, SEARCH),
        };
        match &mut self {
            Call::Open { lengths, .. }
            | Call::Steady { lengths, .. }
            | Call::List { lengths }
            | Call::Step { lengths, .. }
            | Call::Timed { lengths, .. }
            | Call::Report { lengths }
            | Call::Save { lengths, .. }
            | Call::Return { lengths, .. }
            | Call::Forget { lengths, .. }
            | Call::Search { lengths, .. }
            | Call::Run { lengths, .. }
            | Call::Begin { lengths, .. }
            | Call::Carry { lengths, .. } => *lengths = trimmed,
            _ => {}
        }
        self
    }

    pub fn name(&self) -> &'static str {
        match self {
            Call::Open { .. } => "open",
            Call::Steady { .. } => "steady",
            Call::List { .. } => "list",
            Call::Step { .. } => "step",
            Call::Timed { .. } => "timed",
            Call::Report { .. } => "report",
            Call::Save { .. } => "save",
            Call::Return { .. } => "return",
            Call::Forget { .. } => "forget",
            Call::Search { .. } => "search",
            Call::Run { .. } => "run",
            Call::Begin { .. } => "begin",
            Call::Carry { .. } => "carry",
            _ => "change",
        }
    }
}

/// Model, state, listing, waiting draws, choosing draw, clock.
pub type TimedStep = fn(&[u8], &mut [i64], &mut [u64], &[u16], u64, &mut Clock) -> Answer;

/// An engine to make calls on.
#[derive(Clone, Copy)]
pub struct Engine {
    pub open: fn(&[u8], Opening) -> Answer,
    pub open_steady: fn(&[u8], Opening) -> Answer,
    pub list: fn(&[u8], &[i64], &mut [u64]) -> Answer,
    pub step: fn(&[u8], &mut [i64], &mut [u64], u64) -> Answer,
    pub report: fn(&[u8], &[i64], &mut [u64]) -> Answer,
    pub timed_step: TimedStep,
    pub save: fn(&[u8], &[i64], &mut [i64], &[u8], Clock) -> Answer,
    pub return_to: fn(&[u8], &mut [i64], &[i64], &[u8], &mut Clock) -> Answer,
    pub forget: fn(&[u8], &[i64], &mut [i64], &[u8]) -> Answer,
    pub search: fn(&[u8], &[i64], &[u8], u64) -> Found,
    pub run: fn(&[u8], Running) -> Ran,
    pub begin: fn(&[u8], &[i64], &mut [i64], &[u8], u64) -> Answer,
    pub carry_on: fn(&[u8], &[i64], &mut [i64], u64) -> Progress,
    /// Of two entries of a listing.
    pub independent: fn(&[u64], &[u64]) -> bool,
}

/// This crate's engine.
pub const SECOND: Engine = Engine {
    open: crate::open,
    open_steady: crate::open_steady,
    list: crate::list,
    step: crate::step,
    report: crate::report,
    timed_step: crate::timed_step,
    save: crate::save,
    return_to: crate::return_to,
    forget: crate::forget,
    search: crate::search,
    run: crate::run,
    begin: crate::begin,
    carry_on: crate::carry_on,
    independent: independent::independent,
};

/// How much longer the longest lent buffer may be than it should.
pub const SPARE: usize = 8;

/// The buffers, with some numbers to spare for calls that lend too much.
#[derive(Clone, PartialEq, Eq)]
pub struct Buffers {
    pub model: Vec<u8>,
    pub state: Vec<i64>,
    pub listing: Vec<u64>,
    pub report: Vec<u64>,
    pub saves: Vec<i64>,
    pub events: Vec<u64>,
    pub search: Vec<i64>,
    pub clock: Clock,
}

impl Default for Buffers {
    fn default() -> Self {
        Buffers {
            model: vec![0; MODEL + SPARE],
            state: vec![0; STATE + SPARE],
            listing: vec![0; LISTING + SPARE],
            report: vec![0; REPORT + SPARE],
            saves: vec![0; SAVES + SPARE],
            events: vec![0; EVENTS + SPARE],
            search: vec![0; SEARCH + SPARE],
            clock: Clock::default(),
        }
    }
}

impl Buffers {
    /// Makes a call, or a change, which gives nothing.
    pub fn make(&mut self, engine: &Engine, call: &Call) -> Option<Given> {
        let Some(lengths) = call.lengths() else {
            self.change(call);
            return None;
        };
        let (draw, depth) = match call {
            Call::Step { draw, .. } | Call::Timed { draw, .. } => (self.draw(*draw), 0),
            Call::Search { depth, .. } | Call::Begin { depth, .. } => (0, self.depth(*depth)),
            _ => (0, 0),
        };
        let words = match call {
            Call::Run { words, waiting, .. } => self.words(words, waiting),
            _ => Vec::new(),
        };
        let (model, state) = (&mut self.model[..lengths.model], &mut self.state[..lengths.state]);
        let (listing, report) = (&mut self.listing[..lengths.listing], &mut self.report[..lengths.report]);
        let (saves, clock) = (&mut self.saves[..lengths.saves], &mut self.clock);
        let search = &mut self.search[..lengths.search];
        let answer = match call {
            Call::Carry { number, .. } => {
                return Some(Given::Progress((engine.carry_on)(model, state, search, *number)));
            }
            Call::Begin { name, .. } => (engine.begin)(model, state, search, name, depth),
            Call::Search { name, .. } => return Some(Given::Found((engine.search)(model, state, name, depth))),
            Call::Run { waiting, limit, .. } => {
                let (events, limit) = (&mut self.events[..lengths.events], *limit);
                let lent = Running { state, words: &words, waiting, events, limit, clock };
                return Some(Given::Ran((engine.run)(model, lent)));
            }
            Call::Open { text, .. } => (engine.open)(text, Opening { model, state, saves, search, clock }),
            Call::Steady { text, .. } => (engine.open_steady)(text, Opening { model, state, saves, search, clock }),
            Call::List { .. } => (engine.list)(model, state, listing),
            Call::Step { .. } => (engine.step)(model, state, listing, draw),
            Call::Timed { waiting, .. } => (engine.timed_step)(model, state, listing, waiting, draw, clock),
            Call::Report { .. } => (engine.report)(model, state, report),
            Call::Save { name, .. } => (engine.save)(model, state, saves, name, *clock),
            Call::Return { name, .. } => (engine.return_to)(model, state, saves, name, clock),
            Call::Forget { name, .. } => (engine.forget)(model, state, saves, name),
            _ => return None,
        };
        Some(Given::Answer(answer))
    }

    /// Fresh buffers with this text opened in them, and the answer.
    pub fn opened(engine: &Engine, text: &[u8]) -> (Buffers, Answer) {
        let mut buffers = Buffers::default();
        let given = buffers.make(engine, &Call::Open { text: text.to_vec(), lengths: RIGHT });
        let answer = *given.as_ref().and_then(Given::answer).expect("an opening answers");
        (buffers, answer)
    }

    /// Changes the buffers between calls.
    fn change(&mut self, change: &Call) {
        match change {
            Call::SetState { place, number } => self.state[*place] = *number,
            Call::SetModel { place, byte } => self.model[*place] = *byte,
            Call::SetSaves { place, number } => self.saves[*place] = *number,
            Call::SetSearch { place, number } => self.search[*place] = *number,
            Call::EndSearch => self.search[..SEARCH].fill(0),
            Call::SetClock(clock) => self.clock = *clock,
            Call::Light { count, first } => {
                self.state[1] = *count as i64;
                let pairs = &mut self.state[FIRST_PAIR..STATE];
                pairs.fill(0);
                let channel = Channel::new(&[Item { kind: 0, number: 5 }]);
                for (number, pair) in pairs.chunks_mut(PAIR).take(*count).enumerate() {
                    pair.copy_from_slice(&Pair::new(channel, &[first + number as i64]).numbers());
                }
            }
            Call::Crowd { count } => {
                self.state[0] = *count as i64;
                let first = self.state[FIRST_PROCESS..FIRST_PROCESS + PROCESS].to_vec();
                let processes = &mut self.state[FIRST_PROCESS..FIRST_PAIR];
                processes.fill(0);
                for process in processes.chunks_mut(PROCESS).take(*count) {
                    process.copy_from_slice(&first);
                }
            }
            Call::Fill { number } => {
                self.listing.fill(*number);
                self.report.fill(*number);
                self.events.fill(*number);
            }
            _ => {}
        }
    }

    /// Are two entries of the listing independent? Not if it hasn't both.
    pub fn independent(&self, engine: &Engine, first: u64, second: u64) -> bool {
        let row = |number: u64| self.listing[..LISTING].chunks(FIELDS).nth(usize::try_from(number).ok()?);
        match (row(first), row(second)) {
            (Some(one), Some(other)) => (engine.independent)(one, other),
            _ => false,
        }
    }

    /// The call with its draw, its depth and its words as numbers.
    pub fn exact(&self, call: &Call) -> Call {
        match call {
            Call::Step { lengths, draw } => Call::Step { lengths: *lengths, draw: Draw::Exactly(self.draw(*draw)) },
            Call::Timed { lengths, draw, waiting } => {
                let (draw, waiting) = (Draw::Exactly(self.draw(*draw)), waiting.clone());
                Call::Timed { lengths: *lengths, draw, waiting }
            }
            Call::Search { lengths, name, depth } => {
                Call::Search { lengths: *lengths, name: name.clone(), depth: Depth::Exactly(self.depth(*depth)) }
            }
            Call::Run { lengths, words, waiting, limit } => {
                let words = self.words(words, waiting).into_iter().map(Word::Exactly).collect();
                Call::Run { lengths: *lengths, words, waiting: waiting.clone(), limit: *limit }
            }
            Call::Begin { lengths, name, depth } => {
                Call::Begin { lengths: *lengths, name: name.clone(), depth: Depth::Exactly(self.depth(*depth)) }
            }
            _ => call.clone(),
        }
    }

    /// The number that a draw stands for in the present state, by this crate's listing.
    pub fn draw(&self, draw: Draw) -> u64 {
        if let Draw::Exactly(number) = draw {
            return number;
        }
        let mut listing = vec![0; LISTING];
        let total = crate::list(&self.model[..MODEL], &self.state[..STATE], &mut listing).total;
        match draw {
            Draw::Exactly(number) => number,
            Draw::Inside(number) => number % total.max(1),
            Draw::Last => total.saturating_sub(1),
            Draw::Total => total,
        }
    }

    /// The numbers that the words of a run from the present state stand for.
    pub fn words(&self, words: &[Word], waiting: &[u16]) -> Vec<u64> {
        let mut exact = Vec::new();
        for word in words {
            exact.push(match *word {
                Word::Exactly(number) => number,
                Word::Bound(more) => self.bound(&exact, waiting, more),
            });
        }
        exact
    }

    /// The word at the bound of the total that a run meets after these words, or this much more or less.
    fn bound(&self, words: &[u64], waiting: &[u16], more: i64) -> u64 {
        let (model, state, clock) = (&self.model[..MODEL], &mut self.state[..STATE].to_vec(), &mut self.clock.clone());
        let events = &mut vec![0; EVENT * words.len()];
        crate::run(model, Running { state, words, waiting, events, limit: u64::MAX, clock });
        let total = crate::list(model, state, &mut vec![0; LISTING]).total;
        let word = ran::bound(total.max(1)) as i128 + i128::from(more);
        word.clamp(0, i128::from(u64::MAX)) as u64
    }

    /// The number that a depth stands for in the present state. At least 1 if it isn't given exactly.
    pub fn depth(&self, depth: Depth) -> u64 {
        let (most, runs) = match depth {
            Depth::Exactly(number) => return number,
            Depth::Within(most, runs) => (most, runs),
        };
        let Some((model, state)) = engine::held(&self.model[..MODEL], &self.state[..STATE]) else { return most };
        let few = |depth: &u64| Walk::new(model.clone(), state.clone(), *depth as usize).nth(runs).is_none();
        (1..=most).take_while(few).last().unwrap_or(1)
    }

    /// Is it a search, at once or in pieces, with its depth as a number, that walks very many runs, or one that was
    /// changed by hand and is carried on very far?
    pub fn walks_many(&self, call: &Call) -> bool {
        if let &Call::Carry { number, .. } = call {
            let (model, state, search) = (&self.model[..MODEL], &self.state[..STATE], &self.search[..SEARCH]);
            return pieces::takes_long(model, state, search, number, FAR);
        }
        let (&Call::Search { depth: Depth::Exactly(depth), .. } | &Call::Begin { depth: Depth::Exactly(depth), .. }) =
            call
        else {
            return false;
        };
        let Some(depth) = search::depth_of(depth).filter(|&depth| depth > 1) else { return false };
        let held = engine::held(&self.model[..MODEL], &self.state[..STATE]);
        held.is_some_and(|(model, state)| Walk::new(model, state, depth).nth(MANY).is_some())
    }
}
