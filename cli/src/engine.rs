//! One engine: its buffers, and the calls on them. The lengths and layouts are those of docs/LAYOUT.md.

use crate::linked::{self, Clock, Opened};
pub use crate::linked::{Answer, Found, Ran};

const MODEL: usize = 16_386;
const STATE: usize = 5_122;
const LISTING: usize = 7_168;
const REPORT: usize = 64;
const SAVES: usize = 41_008;
const SEARCH: usize = 5_135;
const ENTRY: usize = 7;
const EVENT: usize = 1 + ENTRY;
const PROCESS: usize = 10;
const FIRST_PROCESS: usize = 2;
const FIRST_PAIR: usize = FIRST_PROCESS + 256 * PROCESS;
const PAIR: usize = 10;

/// The longest text, and so how much of a file is worth reading: a byte more is refused.
pub const TEXT: usize = 16_384;
/// The stack of a thread that makes calls: more than the header asks for.
pub const STACK: usize = 16 << 20;

// Kinds of entries.
pub const LAUNCH: u64 = 2;
pub const KILL: u64 = 3;
pub const BINDING: u64 = 5;
pub const HANDSHAKE: u64 = 7;

#[derive(Clone)]
pub struct Engine {
    model: Vec<u8>,
    pub state: State,
    pub clock: Clock,
}

#[derive(Clone)]
pub struct State {
    numbers: Vec<i64>,
}

/// A process of a state.
pub struct Process<'a> {
    pub sum: u64,
    pub locals: &'a [i64],
    pub definition: u64,
}

/// An entry of a listing, or the entry that an event took.
#[derive(Clone, Copy)]
pub struct Entry {
    pub kind: u64,
    pub place: u64,
    pub branch: u64,
    pub partner: u64,
    pub partner_branch: u64,
    pub pair: u64,
    pub weight: u64,
}

/// A step of a run: the ticks after it, and what it took.
#[derive(Clone, Copy)]
pub struct Event {
    pub ticks: u64,
    pub entry: Entry,
}

pub struct Listing {
    pub entries: Vec<Entry>,
    pub total: u64,
}

impl Entry {
    /// May it light or put out a pair?
    pub fn is_change(&self) -> bool {
        [LAUNCH, KILL].contains(&self.kind)
    }

    fn from(numbers: &[u64]) -> Entry {
        let &[kind, place, branch, partner, partner_branch, pair, weight] = numbers else { unreachable!() };
        Entry { kind, place, branch, partner, partner_branch, pair, weight }
    }
}

impl Engine {
    pub fn open(text: &[u8], steady: bool) -> Result<Engine, Answer> {
        let mut engine =
            Engine { model: vec![0; MODEL], state: State { numbers: vec![0; STATE] }, clock: Clock::default() };
        let call = if steady { linked::open_steady } else { linked::open };
        let (state, clock) = (&mut engine.state.numbers[..], &mut engine.clock);
        let opened = Opened { state, saves: &mut vec![0; SAVES], search: &mut vec![0; SEARCH], clock };
        let answer = call(text, &mut engine.model, opened);
        accepted(answer).map(|_| engine)
    }

    pub fn list(&self) -> Result<Listing, Answer> {
        let mut numbers = vec![0; LISTING];
        let answer = accepted(linked::list(&self.model, &self.state.numbers, &mut numbers))?;
        let entries = numbers.chunks(ENTRY).take(answer.count as usize).map(Entry::from).collect();
        Ok(Listing { entries, total: answer.total })
    }

    /// Takes the entry of this number of the present listing: the draw is the sum of the weights before it.
    pub fn take(&mut self, listing: &Listing, number: usize) -> Result<(), Answer> {
        let draw = listing.entries[..number].iter().map(|entry| entry.weight).sum();
        let mut numbers = vec![0; LISTING];
        accepted(linked::step(&self.model, &mut self.state.numbers, &mut numbers, draw)).map(|_| ())
    }

    /// The weights of each definition, and their total.
    pub fn report(&self) -> Result<(Vec<u64>, u64), Answer> {
        let mut numbers = vec![0; REPORT];
        let answer = accepted(linked::report(&self.model, &self.state.numbers, &mut numbers))?;
        Ok((numbers, answer.total))
    }

    pub fn search(&self, name: &[u8], depth: u64) -> Found {
        linked::search(&self.model, &self.state.numbers, name, depth)
    }

    /// Takes at most so many timed steps by these words and waiting draws.
    pub fn run(&mut self, words: &[u64], waiting: &[u16], limit: u64) -> (Ran, Vec<Event>) {
        let mut numbers = vec![0; EVENT * limit as usize];
        let state = &mut self.state.numbers;
        let ran = linked::run(&self.model, state, (words, waiting), &mut numbers, limit, &mut self.clock);
        let event = |numbers: &[u64]| Event { ticks: numbers[0], entry: Entry::from(&numbers[1..]) };
        let events = numbers.chunks(EVENT).take(ran.steps as usize).map(event).collect();
        (ran, events)
    }
}

fn accepted(answer: Answer) -> Result<Answer, Answer> {
    if answer.number == 0 {
        Ok(answer)
    } else {
        Err(answer)
    }
}

impl State {
    pub fn process_count(&self) -> usize {
        self.numbers[0] as usize
    }

    pub fn process(&self, place: u64) -> Process<'_> {
        let row = &self.numbers[FIRST_PROCESS + PROCESS * place as usize..][..PROCESS];
        Process { sum: row[0] as u64, locals: &row[1..PROCESS - 1], definition: row[PROCESS - 1] as u64 }
    }

    /// The lit pairs, ascending.
    pub fn pairs(&self) -> impl Iterator<Item = Pair<'_>> {
        let count = self.numbers[1] as usize;
        self.numbers[FIRST_PAIR..].chunks(PAIR).take(count).map(|numbers| Pair { numbers })
    }

    pub fn copy_from(&mut self, other: &State) {
        self.numbers.copy_from_slice(&other.numbers);
    }

    /// The pair of the longer state that the other, which has at most one less, doesn't have.
    pub fn only_pair_without<'a>(&'a self, other: &State) -> Option<Pair<'a>> {
        if self.numbers[1] <= other.numbers[1] {
            return None;
        }
        let mut others = other.pairs();
        self.pairs().find(|pair| others.next().as_ref() != Some(pair))
    }
}

/// A lit pair: a channel's items, and one or two values.
#[derive(PartialEq, Eq)]
pub struct Pair<'a> {
    numbers: &'a [i64],
}

const ITEMS: usize = 3;
const CHANNEL: usize = 1 + 2 * ITEMS;

/// A channel as pairs have it: how many items, and the kind and value of three.
pub type Channel = [i64; CHANNEL];

/// An item of a channel.
#[derive(Clone, Copy)]
pub enum Item {
    Number(i64),
    /// By the number of the channel name.
    Name(u64),
}

/// The numbers that a pair of a channel begins with; nothing for a channel of no item or of too many.
pub fn channel_numbers(items: &[Item]) -> Option<Channel> {
    if items.is_empty() || items.len() > ITEMS {
        return None;
    }
    let mut numbers = [0; CHANNEL];
    numbers[0] = items.len() as i64;
    for (item, cell) in items.iter().zip(numbers[1..].chunks_mut(2)) {
        let (kind, value) = match *item {
            Item::Number(number) => (0, number),
            Item::Name(number) => (1, number as i64),
        };
        cell.copy_from_slice(&[kind, value]);
    }
    Some(numbers)
}

impl<'a> Pair<'a> {
    pub fn items(&self) -> impl Iterator<Item = Item> + 'a {
        let items = self.numbers[1..CHANNEL].chunks(2).take(self.numbers[0] as usize);
        items.map(|item| if item[0] == 0 { Item::Number(item[1]) } else { Item::Name(item[1] as u64) })
    }

    pub fn values(&self) -> &'a [i64] {
        &self.numbers[CHANNEL + 1..][..self.numbers[CHANNEL] as usize]
    }

    pub fn is_on(&self, channel: &Channel) -> bool {
        self.numbers[..CHANNEL] == channel[..]
    }
}
