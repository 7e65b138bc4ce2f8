//! What can happen next: the derivations of a state, in order, with their weights. Questions
//! 12 to 14.

use crate::eval::{self, Ranges};
use crate::model::{self, Action, ChannelItem, Model};
use crate::state::{Channel, Item, Pair, State};

/// The most entries a listing has.
pub const ENTRIES: usize = 1_024;
/// Numbers of an entry.
pub const FIELDS: usize = 7;
/// Which of them are these.
pub const KIND: usize = 0;
pub const PLACE: usize = 1;
pub const PARTNER: usize = 3;
pub const WEIGHT: usize = 6;
/// The length of the listing buffer.
pub const BUFFER: usize = ENTRIES * FIELDS;
const TOTAL: u128 = 9_000_000_000_000_000_000;

#[derive(Clone, Copy, Debug, PartialEq, Eq)]
pub enum Kind {
    Wait = 1,
    Launch = 2,
    Kill = 3,
    Receive = 4,
    BindingReceive = 5,
    Check = 6,
    Handshake = 7,
}

#[derive(Clone, Copy, Debug, PartialEq, Eq)]
pub struct Entry {
    pub kind: Kind,
    pub place: usize,
    pub branch: usize,
    /// The receiver's place and branch. 0 if it isn't a handshake.
    pub partner: usize,
    pub partner_branch: usize,
    /// The pair's place in the state. 0 if it isn't a binding receive.
    pub pair: usize,
    pub weight: u64,
}

impl Kind {
    const ALL: [Kind; 7] =
        [Kind::Wait, Kind::Launch, Kind::Kill, Kind::Receive, Kind::BindingReceive, Kind::Check, Kind::Handshake];
}

impl Entry {
    /// As a listing buffer has it.
    pub fn numbers(&self) -> [u64; FIELDS] {
        let places =
            [self.place, self.branch, self.partner, self.partner_branch, self.pair].map(|number| number as u64);
        let [place, branch, partner, partner_branch, pair] = places;
        [self.kind as u64, place, branch, partner, partner_branch, pair, self.weight]
    }

    /// The entry with these numbers, if they are of a kind.
    pub fn read(numbers: &[u64]) -> Option<Entry> {
        let &[kind, place, branch, partner, partner_branch, pair, weight] = numbers else { return None };
        let kind = Kind::ALL.into_iter().find(|&one| one as u64 == kind)?;
        let [place, branch, partner, partner_branch, pair] =
            [place, branch, partner, partner_branch, pair].map(|number| number as usize);
        Some(Entry { kind, place, branch, partner, partner_branch, pair, weight })
    }
}

#[derive(Debug)]
pub struct Listing {
    pub entries: Vec<Entry>,
    pub total: u64,
}

#[derive(Clone, Copy, Debug, PartialEq, Eq)]
pub enum Refused {
    /// 12, with place and branch.
    NoValue { place: usize, branch: usize },
    /// 13
    TooManyEntries,
    /// 14
    TotalTooLarge,
}

/// A branch whose gate is true or absent, with everything in it evaluated.
#[derive(Debug)]
pub struct Open {
    pub rate: i64,
    pub offer: Offer,
}

#[derive(Debug)]
pub enum Offer {
    Wait,
    Launch(Pair),
    Kill(Pair),
    Receive(Wanted),
    BindingReceive(Wanted),
    Check(Wanted),
    HandshakeSend(Pair),
    HandshakeReceive(Wanted),
}

/// A channel and sets for the values on it.
#[derive(Debug)]
pub struct Wanted {
    channel: Channel,
    sets: Vec<Ranges>,
}

impl Wanted {
    /// The same channel item for item, as many values as sets, each value in its set.
    fn matches(&self, pair: &Pair) -> bool {
        let values = pair.values();
        self.channel == pair.channel
            && self.sets.len() == values.len()
            && self.sets.iter().zip(values).all(|(set, &value)| set.holds(value))
    }
}

/// For each process, for each of its branches: what it offers, or `None` if its gate is false.
pub type Offers = Vec<Vec<Option<Open>>>;

/// Question 12: evaluates all branches of all processes.
pub fn offers(model: &Model, state: &State) -> Result<Offers, Refused> {
    let mut all = Vec::new();
    for (place, process) in state.processes.iter().enumerate() {
        let mut offers = Vec::new();
        for (number, branch) in model.sums[process.sum].branches.iter().enumerate() {
            match open_branch(branch, &process.locals) {
                Some(offer) => offers.push(offer),
                None => return Err(Refused::NoValue { place, branch: number }),
            }
        }
        all.push(offers);
    }
    Ok(all)
}

/// The outer `None`: some part has no value. The inner `None`: the gate is false.
fn open_branch(branch: &model::Branch, locals: &[i64]) -> Option<Option<Open>> {
    if let Some(gate) = &branch.gate {
        if !eval::condition(gate, locals)? {
            return Some(None);
        }
    }
    let rate = eval::rate(&branch.rate, locals)?;
    let pair = |channel, values| -> Option<Pair> {
        let channel = open_channel(channel, locals)?;
        Some(Pair::new(channel, &eval::expressions(values, locals)?))
    };
    let wanted = |channel, sets| -> Option<Wanted> {
        let channel = open_channel(channel, locals)?;
        Some(Wanted { channel, sets: eval::sets(sets, locals)? })
    };
    let offer = match &branch.action {
        Action::Wait(_) => Offer::Wait,
        Action::Launch(channel, values) => Offer::Launch(pair(channel, values)?),
        Action::Kill(channel, values) => Offer::Kill(pair(channel, values)?),
        Action::Receive(channel, sets, false) => Offer::Receive(wanted(channel, sets)?),
        Action::Receive(channel, sets, true) => Offer::BindingReceive(wanted(channel, sets)?),
        Action::Check(channel, sets) => Offer::Check(wanted(channel, sets)?),
        Action::HandshakeSend(channel, values) => Offer::HandshakeSend(pair(channel, values)?),
        Action::HandshakeReceive(channel, sets, _) => Offer::HandshakeReceive(wanted(channel, sets)?),
    };
    Some(Some(Open { rate, offer }))
}

fn open_channel(channel: &model::Channel, locals: &[i64]) -> Option<Channel> {
    let items: Option<Vec<Item>> = channel.iter().map(|item| open_item(item, locals)).collect();
    Some(Channel::new(&items?))
}

fn open_item(item: &ChannelItem, locals: &[i64]) -> Option<Item> {
    Some(match item {
        ChannelItem::Name(number) => Item { kind: 1, number: *number },
        ChannelItem::Number(expression) => Item { kind: 0, number: eval::expression(expression, locals)? },
    })
}

/// The listing of a state. Questions 13 and 14.
pub fn derive(offers: &Offers, state: &State) -> Result<Listing, Refused> {
    let mut entries = Vec::new();
    for (place, branches) in offers.iter().enumerate() {
        for (branch, open) in branches.iter().enumerate() {
            if let Some(open) = open {
                add_entries(&mut entries, place, branch, open, offers, state);
            }
            if entries.len() > ENTRIES {
                return Err(Refused::TooManyEntries);
            }
        }
    }
    let total: u128 = entries.iter().map(|entry| u128::from(entry.weight)).sum();
    if total > TOTAL {
        return Err(Refused::TotalTooLarge);
    }
    Ok(Listing { entries, total: total as u64 })
}

/// Adds the derivations of one branch, in order.
fn add_entries(entries: &mut Vec<Entry>, place: usize, branch: usize, open: &Open, offers: &Offers, state: &State) {
    let alone =
        |kind| Entry { kind, place, branch, partner: 0, partner_branch: 0, pair: 0, weight: open.rate as u64 * 10_000 };
    match &open.offer {
        Offer::Wait => entries.push(alone(Kind::Wait)),
        Offer::Launch(_) => entries.push(alone(Kind::Launch)),
        Offer::Kill(_) => entries.push(alone(Kind::Kill)),
        Offer::Receive(wanted) => {
            if state.pairs.iter().any(|pair| wanted.matches(pair)) {
                entries.push(alone(Kind::Receive));
            }
        }
        Offer::BindingReceive(wanted) => {
            for (number, pair) in state.pairs.iter().enumerate() {
                if wanted.matches(pair) {
                    entries.push(Entry { pair: number, ..alone(Kind::BindingReceive) });
                }
            }
        }
        Offer::Check(wanted) => {
            if !state.pairs.iter().any(|pair| wanted.matches(pair)) {
                entries.push(alone(Kind::Check));
            }
        }
        Offer::HandshakeSend(sent) => {
            for (partner, branches) in offers.iter().enumerate() {
                if partner == place {
                    continue;
                }
                for (partner_branch, other) in branches.iter().enumerate() {
                    if let Some(Open { rate, offer: Offer::HandshakeReceive(wanted) }) = other {
                        if wanted.matches(sent) {
                            entries.push(Entry {
                                partner,
                                partner_branch,
                                weight: open.rate as u64 * *rate as u64,
                                ..alone(Kind::Handshake)
                            });
                        }
                    }
                }
            }
        }
        // It is listed at its sender.
        Offer::HandshakeReceive(_) => {}
    }
}

impl Listing {
    /// The number of the first entry whose running sum of weights exceeds the draw.
    pub fn choose(&self, draw: u64) -> Option<usize> {
        let mut sum = 0;
        for (number, entry) in self.entries.iter().enumerate() {
            sum += u128::from(entry.weight);
            if sum > u128::from(draw) {
                return Some(number);
            }
        }
        None
    }
}

/// Writes the weights of a listing's entries into a report, summed up by the definition in whose text the acting
/// process stands (02, note 6); of a handshake that is its sender, at whose place it is listed.
pub fn write_report(listing: &Listing, model: &Model, state: &State, report: &mut [u64]) {
    report.fill(0);
    for entry in &listing.entries {
        let sum = state.processes[entry.place].sum;
        report[model.sums[sum].definition] += entry.weight;
    }
}

/// Writes a listing into a buffer. Unused numbers are 0.
pub fn write_buffer(listing: &Listing, buffer: &mut [u64]) {
    buffer.fill(0);
    for (entry, part) in listing.entries.iter().zip(buffer.chunks_mut(FIELDS)) {
        part.copy_from_slice(&entry.numbers());
    }
}
