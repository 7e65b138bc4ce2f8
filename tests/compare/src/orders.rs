//! Which rows are independent entries, and such entries taken in both orders (02, note 14): where both are accepted, the states afterwards are equal, and
//! the listing between has the second entry once, moved as decision A104 says, with its weight.

use crate::lists;
use second::generate::{self, Buffers, Call, Draw, Engine, Random, RIGHT};
use second::independent::{independent, moved};
use second::listing::{Entry, FIELDS, KIND, WEIGHT};
use second::{model, state, LISTING, MODEL, STATE};
use std::collections::BTreeMap;
use std::fmt;

/// How many seeds the test runs.
pub const SEEDS: u64 = 250;
/// So many states of a seed's model are tried, and so many pairs of entries of each, at most.
const STATES: usize = 8;
const PAIRS: usize = 12;
/// So many pairs of rows that no listing need have are judged for a seed.
const ROWS: usize = 200;
/// So many steps are taken from one state to the next, at most.
const STEPS: usize = 8;

/// How one order ended.
#[derive(Clone, Debug, PartialEq, Eq)]
enum Order {
    /// The state after both.
    Taken(Vec<i64>),
    /// The number with which one of the steps, or the listing between, was refused.
    Refused(u64),
}

/// The pairs tried, by the kinds of both entries, the lower first: how many, and for how many both orders were accepted.
#[derive(Clone, Debug, Default)]
pub struct Tried {
    pairs: BTreeMap<(u64, u64), (u64, u64)>,
    refused: u64,
    /// Rows found independent among those that no listing need have.
    rows: u64,
}

/// The kinds of entries that can be independent.
const KINDS: [u64; 5] = [1, 4, 5, 6, 7];

impl Tried {
    /// Kinds of which no pair was accepted in both orders; also if no order was ever refused.
    pub fn missing(&self) -> Vec<String> {
        let pairs =
            KINDS.iter().flat_map(|&one| KINDS.iter().filter(move |&&two| one <= two).map(move |&two| (one, two)));
        let unmet = pairs.filter(|kinds| self.pairs.get(kinds).is_none_or(|(_, accepted)| *accepted == 0));
        let refused = (self.refused == 0).then(|| "an order that is refused".to_string());
        let rows = (self.rows == 0).then(|| "independent rows of any numbers".to_string());
        unmet
            .map(|(one, two)| format!("independent entries of kinds {one} and {two}"))
            .chain(refused)
            .chain(rows)
            .collect()
    }
}

impl fmt::Display for Tried {
    fn fmt(&self, out: &mut fmt::Formatter) -> fmt::Result {
        let kinds = self.pairs.iter().map(|((one, two), (tried, accepted))| format!("{one},{two}:{tried}({accepted})"));
        let kinds = kinds.collect::<Vec<_>>().join(" ");
        write!(
            out,
            "independent entries tried (both orders accepted) {kinds}; orders refused {}; rows {}",
            self.refused, self.rows
        )
    }
}

/// Tries pairs of entries at states of these seeds' models. `Err` says the first fault in words.
pub fn run(tried: &Engine, seeds: std::ops::Range<u64>, met: &mut Tried) -> Result<(), String> {
    model::keep_last();
    for seed in seeds {
        of_seed(tried, seed, met).map_err(|fault| format!("seed {seed}: {fault}"))?;
    }
    Ok(())
}

fn of_seed(engine: &Engine, seed: u64, met: &mut Tried) -> Result<(), String> {
    let mut random = Random::new(seed);
    for _ in 0..ROWS {
        met.rows += u64::from(same(engine, &some_row(&mut random), &some_row(&mut random))?);
    }
    let text = generate::lively(&mut random);
    let read = model::read(&text).expect("a lively text is legal");
    let mut buffers = Buffers::default();
    buffers.make(engine, &Call::Open { text, lengths: RIGHT });
    for number in 0..STATES {
        // States that a run reaches, then some that none need reach.
        if number >= STATES / 2 {
            buffers.state[..STATE].copy_from_slice(&lists::some_state(&mut random, &read));
        }
        for _ in 0..random.below(STEPS) {
            buffers.make(engine, &Call::Step { lengths: RIGHT, draw: Draw::Inside(random.number()) });
        }
        at_state(engine, &mut random, &buffers, met)?;
    }
    Ok(())
}

/// What both engines say of two rows; it is the same in either order.
fn same(engine: &Engine, one: &[u64], other: &[u64]) -> Result<bool, String> {
    let is = independent(one, other);
    if (engine.independent)(one, other) != is || (engine.independent)(other, one) != is {
        return Err(format!("{one:?} and {other:?} are independent: {is}, and the engine says otherwise"));
    }
    Ok(is)
}

/// Rows of any numbers, and of other lengths.
fn some_row(random: &mut Random) -> Vec<u64> {
    let number = |random: &mut Random| *random.pick(&[0, 0, 1, 1, 2, 3, 255, 256, 1 << 32, u64::MAX]);
    let mut row: Vec<u64> = (0..FIELDS).map(|_| number(random)).collect();
    row[KIND] = if random.chance(90) { random.between(1, 7) as u64 } else { number(random) };
    row[WEIGHT] = *random.pick(&[0, 1, 1, 1, u64::MAX]);
    if random.chance(5) {
        row.resize(random.below(2 * FIELDS), 1);
    }
    row
}

/// An entry of a kind that is there, so that those of rare kinds are chosen too.
fn some_entry(random: &mut Random, entries: &[Entry]) -> usize {
    let mut kinds: Vec<u64> = entries.iter().map(|entry| entry.kind as u64).collect();
    kinds.sort();
    kinds.dedup();
    let kind = *random.pick(&kinds);
    let of_kind: Vec<usize> = (0..entries.len()).filter(|&number| entries[number].kind as u64 == kind).collect();
    *random.pick(&of_kind)
}

/// Tries pairs of entries of one state.
fn at_state(engine: &Engine, random: &mut Random, buffers: &Buffers, met: &mut Tried) -> Result<(), String> {
    let Some(entries) = listed(engine, &buffers.model[..MODEL], &buffers.state[..STATE]) else { return Ok(()) };
    for _ in 0..PAIRS.min(entries.len()) {
        let (first, second) = (some_entry(random, &entries), some_entry(random, &entries));
        if same(engine, &entries[first].numbers(), &entries[second].numbers())? {
            let orders =
                [(first, second), (second, first)].map(|(one, two)| in_order(engine, buffers, &entries, one, two));
            note(met, &entries[first], &entries[second], orders)?;
        }
    }
    Ok(())
}

fn note(met: &mut Tried, one: &Entry, other: &Entry, orders: [Result<Order, String>; 2]) -> Result<(), String> {
    let [first, second] = orders;
    let (first, second) = (first?, second?);
    let (low, high) = (one.kind as u64, other.kind as u64);
    let counts = met.pairs.entry((low.min(high), low.max(high))).or_default();
    counts.0 += 1;
    match (first, second) {
        (Order::Taken(first), Order::Taken(second)) if first != second => {
            let place = first.iter().zip(&second).position(|(one, other)| one != other).unwrap_or(0);
            return Err(format!("{one:?} then {other:?} ends otherwise than the other order, at number {place}"));
        }
        (Order::Taken(_), Order::Taken(_)) => counts.1 += 1,
        _ => met.refused += 1,
    }
    Ok(())
}

/// The entries that an engine lists, if it lists.
fn listed(engine: &Engine, model: &[u8], state: &[i64]) -> Option<Vec<Entry>> {
    let mut listing = vec![0; LISTING];
    let answer = (engine.list)(model, state, &mut listing);
    let rows = listing.chunks(FIELDS).take(answer.count as usize);
    (answer.number == 0).then(|| rows.map(|row| Entry::read(row).expect("an entry")).collect())
}

/// Takes two entries one after the other. `Err`: the listing between hasn't the second one where it should stand.
fn in_order(engine: &Engine, buffers: &Buffers, entries: &[Entry], one: usize, two: usize) -> Result<Order, String> {
    let model = &buffers.model[..MODEL];
    let mut state = buffers.state[..STATE].to_vec();
    let read = model::read_buffer(model).expect("an open model");
    let held = state::read_buffer(&read, &state).expect("a state of it");
    let expected = moved(&entries[two], &entries[one], &read, &held);
    if let Some(number) = took(engine, model, &mut state, entries, one)? {
        return Ok(Order::Refused(number));
    }
    let Some(between) = listed(engine, model, &state) else { return Ok(Order::Refused(12)) };
    let places: Vec<usize> = (0..between.len()).filter(|&place| between[place] == expected).collect();
    let [place] = places[..] else {
        return Err(format!("after {:?} the listing has {expected:?} {} times", entries[one], places.len()));
    };
    Ok(match took(engine, model, &mut state, &between, place)? {
        Some(number) => Order::Refused(number),
        None => Order::Taken(state),
    })
}

/// Takes an entry of a state by the least draw that chooses it: the number of the refusal, if it is refused.
fn took(
    engine: &Engine,
    model: &[u8],
    state: &mut [i64],
    entries: &[Entry],
    chosen: usize,
) -> Result<Option<u64>, String> {
    let draw = entries[..chosen].iter().map(|entry| entry.weight).sum();
    let answer = (engine.step)(model, state, &mut vec![0; LISTING], draw);
    if answer.number == 0 && answer.chosen != chosen as u64 {
        return Err(format!("draw {draw} takes entry {} and not {chosen}", answer.chosen));
    }
    Ok((answer.number != 0).then_some(answer.number))
}
