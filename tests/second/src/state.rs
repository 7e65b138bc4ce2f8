//! The state: a list of processes and a set of lit pairs, and the buffer of signed 64-bit
//! numbers that holds them.

use crate::limits::is_value;
use crate::model::Model;
use crate::syntax::ITEMS;

pub const PROCESSES: usize = 256;
pub const PAIRS: usize = 256;
/// The most locals of a process.
pub const LOCALS: usize = 8;
/// Which number of a process is its definition's: that after its sum's and its locals (02, note 6).
pub const DEFINITION: usize = 1 + LOCALS;
/// Numbers of a process.
pub const PROCESS: usize = DEFINITION + 1;
/// Which number of a pair is its count of values: that after the count of items and their kinds and values (02, note 7).
pub const VALUE_COUNT: usize = 1 + 2 * ITEMS;
/// Which is the first of its values.
pub const FIRST_VALUE: usize = VALUE_COUNT + 1;
/// The most values of a pair.
pub const VALUES: usize = 2;
/// Numbers of a pair.
pub const PAIR: usize = FIRST_VALUE + VALUES;
/// Where the processes begin, after both counts.
pub const FIRST_PROCESS: usize = 2;
pub const FIRST_PAIR: usize = FIRST_PROCESS + PROCESSES * PROCESS;

/// The length of the state buffer.
pub const BUFFER: usize = FIRST_PAIR + PAIRS * PAIR;

#[derive(Clone, Debug, PartialEq, Eq)]
pub struct State {
    pub processes: Vec<Process>,
    /// Strictly ascending.
    pub pairs: Vec<Pair>,
}

#[derive(Clone, Debug, PartialEq, Eq)]
pub struct Process {
    pub sum: usize,
    /// As many as the sum has in scope.
    pub locals: Vec<i64>,
}

/// An item of a channel: kind (0 number, 1 name) and number.
#[derive(Clone, Copy, Debug, Default, PartialEq, Eq, PartialOrd, Ord)]
pub struct Item {
    pub kind: i64,
    pub number: i64,
}

/// A channel of one to three items. Equal channels have as many items, each equal to its counterpart.
#[derive(Clone, Copy, Debug, PartialEq, Eq, PartialOrd, Ord)]
pub struct Channel {
    count: usize,
    /// Those past the count are 0 and 0.
    items: [Item; ITEMS],
}

impl Channel {
    pub fn new(items: &[Item]) -> Channel {
        Channel { count: items.len(), items: padded(items) }
    }
}

/// Pairs are ordered by item count, kind and number of each item, count of values, values: the order of the fields.
#[derive(Clone, Copy, Debug, PartialEq, Eq, PartialOrd, Ord)]
pub struct Pair {
    pub channel: Channel,
    /// 1 or 2.
    pub count: usize,
    /// The second is 0 if there is one value only.
    values: [i64; VALUES],
}

impl Pair {
    /// A pair with one or two values.
    pub fn new(channel: Channel, values: &[i64]) -> Pair {
        Pair { channel, count: values.len(), values: padded(values) }
    }

    pub fn values(&self) -> &[i64] {
        &self.values[..self.count]
    }

    /// As a state has it.
    pub fn numbers(&self) -> Vec<i64> {
        let mut numbers = vec![self.channel.count as i64];
        for item in self.channel.items {
            numbers.extend([item.kind, item.number]);
        }
        numbers.push(self.count as i64);
        numbers.extend(self.values);
        numbers
    }
}

/// The list, with zeros up to its greatest length.
fn padded<T: Copy + Default, const LENGTH: usize>(list: &[T]) -> [T; LENGTH] {
    let mut all = [T::default(); LENGTH];
    all[..list.len()].copy_from_slice(list);
    all
}

/// The state of a model just opened: the system line's items in order, counts written out, each
/// replaced by its definition's sums; no pair.
pub fn start(model: &Model) -> State {
    let mut processes = Vec::new();
    for item in &model.system {
        for _ in 0..item.count {
            for &sum in &model.definitions[item.definition].sums {
                processes.push(Process { sum, locals: item.values.clone() });
            }
        }
    }
    State { processes, pairs: Vec::new() }
}

/// How many processes there are at the start.
pub fn processes_at_start(model: &Model) -> usize {
    model.system.iter().map(|item| item.count * model.processes_of(item.definition)).sum()
}

/// Writes a state over this model with at most 256 processes and 256 pairs into a buffer.
pub fn write_buffer(model: &Model, state: &State, buffer: &mut [i64]) {
    buffer.fill(0);
    buffer[0] = state.processes.len() as i64;
    buffer[1] = state.pairs.len() as i64;
    for (number, process) in state.processes.iter().enumerate() {
        let place = FIRST_PROCESS + number * PROCESS;
        buffer[place] = process.sum as i64;
        buffer[place + 1..place + 1 + process.locals.len()].copy_from_slice(&process.locals);
        buffer[place + DEFINITION] = model.sums[process.sum].definition as i64;
    }
    for (pair, part) in state.pairs.iter().zip(buffer[FIRST_PAIR..].chunks_mut(PAIR)) {
        part.copy_from_slice(&pair.numbers());
    }
}

/// Question 11 of a state buffer: the state over this model that it holds, if it holds one.
pub fn read_buffer(model: &Model, buffer: &[i64]) -> Option<State> {
    if buffer.len() != BUFFER {
        return None;
    }
    let process_count = below(buffer[0], PROCESSES + 1)?;
    let pair_count = below(buffer[1], PAIRS + 1)?;

    let mut processes = Vec::new();
    for (number, part) in buffer[FIRST_PROCESS..FIRST_PAIR].chunks(PROCESS).enumerate() {
        if number < process_count {
            processes.push(read_process(model, part)?);
        } else if !all_zero(part) {
            return None;
        }
    }
    let mut pairs: Vec<Pair> = Vec::new();
    for (number, part) in buffer[FIRST_PAIR..].chunks(PAIR).enumerate() {
        if number < pair_count {
            let pair = read_pair(model, part)?;
            if pairs.last().is_some_and(|last| *last >= pair) {
                return None;
            }
            pairs.push(pair);
        } else if !all_zero(part) {
            return None;
        }
    }
    Some(State { processes, pairs })
}

fn read_process(model: &Model, part: &[i64]) -> Option<Process> {
    let sum = below(part[0], model.sums.len())?;
    let (locals, unused) = part[1..DEFINITION].split_at(model.sums[sum].locals);
    if !locals.iter().all(|&local| is_value(local)) || !all_zero(unused) {
        return None;
    }
    if part[DEFINITION] != model.sums[sum].definition as i64 {
        return None;
    }
    Some(Process { sum, locals: locals.to_vec() })
}

fn read_pair(model: &Model, part: &[i64]) -> Option<Pair> {
    let (items, unused) = part[1..VALUE_COUNT].split_at(2 * one_to(part[0], ITEMS)?);
    let items: Option<Vec<Item>> = items.chunks(2).map(|item| read_item(model, item[0], item[1])).collect();
    let (values, unused_values) = part[FIRST_VALUE..].split_at(one_to(part[VALUE_COUNT], VALUES)?);
    if !values.iter().all(|&value| is_value(value)) || !all_zero(unused) || !all_zero(unused_values) {
        return None;
    }
    Some(Pair::new(Channel::new(&items?), values))
}

fn read_item(model: &Model, kind: i64, number: i64) -> Option<Item> {
    match kind {
        0 if is_value(number) => {}
        1 if below(number, model.channel_names).is_some() => {}
        _ => return None,
    }
    Some(Item { kind, number })
}

/// The number, if it is from 1 to the most.
fn one_to(number: i64, most: usize) -> Option<usize> {
    below(number, most + 1).filter(|&number| number > 0)
}

/// The number, if it is from 0 to below the end.
fn below(number: i64, end: usize) -> Option<usize> {
    usize::try_from(number).ok().filter(|&number| number < end)
}

fn all_zero(numbers: &[i64]) -> bool {
    numbers.iter().all(|&number| number == 0)
}
