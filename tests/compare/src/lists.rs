//! The lists of calls of a comparison, each made from its seed alone.

use crate::compare;
use crate::met::Met;
use crate::{shrink, specimens, texts};
use second::generate::{self, Buffers, Call, Draw, Engine, Random, RIGHT, SECOND};
use second::limits::{HIGHEST, LOWEST};
use second::model::Model;
use second::pieces::{self, COUNTED};
use second::search::{Walk, DEPTH};
use second::state::{
    Channel, Item, Pair, DEFINITION, FIRST_PAIR, FIRST_PROCESS, FIRST_VALUE, PAIR, PAIRS, PROCESS, PROCESSES,
};
use second::syntax::ITEMS;
use second::{engine, mazes, model, saves, script, walks, MODEL, SAVES, SEARCH, STATE};

/// How many lists the test runs, and how many calls it makes at least.
pub const LISTS: u64 = 1_200;
pub const LEAST_CALLS: u64 = 30_000;
/// At most so many calls follow an opening.
const STEPS: usize = 40;

/// The two bytes of the text's length stand before the text.
const TEXT_START: usize = 2;

/// The list of a seed: mostly random calls; every tenth goes through the limits, every fifth
/// hands in states and model buffers directly, every tenth has long lists or many names, every
/// tenth is of saves, one in twenty of a steady model, one of searches, one of searches in pieces, one of searches handed
/// in directly and one of runs.
pub fn of_seed(seed: u64) -> Vec<Call> {
    let mut random = Random::new(seed);
    match seed % 20 {
        9 | 19 => generate::edge_calls(&mut random),
        4 | 14 => handed_states(&mut random),
        8 | 18 => handed_models(&mut random),
        2 => handed_saves(&mut random),
        12 => generate::stored_calls(&mut random, 2 * STEPS),
        13 => mazes::searches(&mut random),
        3 if seed % 40 == 3 => generate::searched_calls(&mut random, 2 * STEPS),
        3 => mazes::in_pieces(&mut random),
        11 => handed_searches(&mut random),
        7 => walks::walks(&mut random, (seed / 20) as usize),
        6 => {
            let which = (seed / 20) as usize % texts::LONG;
            let text = texts::long(&mut random, which);
            opened_and_run(&mut random, text, 2)
        }
        16 => {
            let text = texts::many_names(&mut random);
            opened_and_run(&mut random, text, STEPS)
        }
        17 => {
            let text = generate::steady(&mut random);
            let mut calls = opened_and_run(&mut random, text, STEPS);
            let Call::Open { text, lengths } = calls.remove(0) else { unreachable!("it opens first") };
            calls.insert(0, Call::Steady { text, lengths });
            calls
        }
        _ => generate::calls(&mut random, STEPS),
    }
}

/// Opens a text, lists it and takes some steps.
fn opened_and_run(random: &mut Random, text: Vec<u8>, steps: usize) -> Vec<Call> {
    let lengths = RIGHT;
    let mut calls = vec![Call::Open { text, lengths }, Call::List { lengths }, Call::Report { lengths }];
    for _ in 0..steps {
        calls.push(Call::Step { lengths, draw: Draw::Inside(random.number()) });
    }
    calls
}

/// Runs the specimens, then the lists of these seeds; `Err` says the first difference, shrunk,
/// with its script.
pub fn run(tried: &Engine, oracle: &Engine, seeds: std::ops::Range<u64>, met: &mut Met) -> Result<(), Report> {
    model::keep_last();
    let report = |seed, difference| Report::new(seed, shrink::shrink(tried, oracle, difference));
    specimens::run(tried, oracle, met).map_err(|difference| report(None, difference))?;
    for seed in seeds {
        compare::run(tried, oracle, &of_seed(seed), met).map_err(|difference| report(Some(seed), difference))?;
    }
    Ok(())
}

/// A difference, shrunk, and its script.
#[derive(Clone, Debug)]
pub struct Report {
    /// None: a specimen.
    pub seed: Option<u64>,
    pub difference: compare::Difference,
    pub script: Vec<u8>,
}

impl Report {
    fn new(seed: Option<u64>, difference: compare::Difference) -> Report {
        let mut script = script::write(&difference.made);
        if difference.place == compare::Place::State {
            script.extend(b"state\n");
        }
        Report { seed, difference, script }
    }
}

impl std::fmt::Display for Report {
    fn fmt(&self, out: &mut std::fmt::Formatter) -> std::fmt::Result {
        match self.seed {
            Some(seed) => writeln!(out, "seed {seed}, shrunk; {}", self.difference)?,
            None => writeln!(out, "a specimen, shrunk; {}", self.difference)?,
        }
        if script::is_plain(&self.difference.made) {
            writeln!(out, "The script for `calls`:")?;
        } else {
            writeln!(out, "The script (lines with ! are for this package's `replay`; `calls` doesn't know them):")?;
        }
        write!(out, "{}", String::from_utf8_lossy(&self.script))
    }
}

// States handed in directly.

/// Opens a text, then hands in states: any that fit its model, and spoilt ones.
fn handed_states(random: &mut Random) -> Vec<Call> {
    let text = generate::lively(random);
    let read = model::read(&text).expect("a lively text is legal");
    let mut calls = vec![Call::Open { text, lengths: RIGHT }];
    let mut buffers = Buffers::default();
    buffers.make(&SECOND, &calls[0]);
    for _ in 0..4 {
        let state = some_state(random, &read);
        hand_in(&mut calls, &mut buffers, &state);
        listed_and_stepped(random, &mut calls, &mut buffers, 3);
        let mut spoilt = buffers.state[..STATE].to_vec();
        for _ in 0..*random.pick(&[1, 1, 2]) {
            spoil(random, &mut spoilt);
        }
        hand_in(&mut calls, &mut buffers, &spoilt);
        calls.push(Call::Fill { number: random.number() });
        listed_and_stepped(random, &mut calls, &mut buffers, 1);
    }
    around_the_ends(random, &read, &mut calls, &mut buffers);
    wrong_definitions(random, &read, &mut calls, &mut buffers);
    wrong_pairs(random, &read, &mut calls, &mut buffers);
    calls
}

/// Lists and reports with a number of the state changed to each of these, then changed back.
fn tried_with(numbers: &[i64], place: usize, calls: &mut Vec<Call>, buffers: &Buffers) {
    for &number in numbers.iter().chain([&buffers.state[place]]) {
        calls.push(Call::SetState { place, number });
        calls.extend([Call::List { lengths: RIGHT }, Call::Report { lengths: RIGHT }]);
    }
}

/// Processes of every sum, one of which carries another definition's number, and a definition's number in an unused
/// row.
fn wrong_definitions(random: &mut Random, model: &model::Model, calls: &mut Vec<Call>, buffers: &mut Buffers) {
    let mut state = vec![0; STATE];
    let used = model.sums.len().min(PROCESSES - 1);
    state[0] = used as i64;
    for (sum, process) in state[FIRST_PROCESS..FIRST_PAIR].chunks_mut(PROCESS).take(used).enumerate() {
        process[0] = sum as i64;
        process[DEFINITION] = model.sums[sum].definition as i64;
    }
    hand_in(calls, buffers, &state);
    for (row, change) in [(random.below(used), 1), (random.below(used), -1), (used, 1)] {
        let place = FIRST_PROCESS + PROCESS * row + DEFINITION;
        tried_with(&[state[place] + change], place, calls, buffers);
    }
}

/// A pair, each number of which is one lower and one higher in turn.
fn wrong_pairs(random: &mut Random, model: &model::Model, calls: &mut Vec<Call>, buffers: &mut Buffers) {
    let mut state = vec![0; STATE];
    state[1] = 1;
    let pair = Pair::new(some_channel(random, model), &[1, 2][..=random.below(2)]);
    state[FIRST_PAIR..FIRST_PAIR + PAIR].copy_from_slice(&pair.numbers());
    hand_in(calls, buffers, &state);
    for place in FIRST_PAIR..FIRST_PAIR + PAIR {
        tried_with(&[state[place] - 1, state[place] + 1], place, calls, buffers);
    }
}

/// A process and a pair, each number of which that is a value stands in turn at both ends of the range and one
/// past each.
fn around_the_ends(random: &mut Random, model: &model::Model, calls: &mut Vec<Call>, buffers: &mut Buffers) {
    let sum = random.below(model.sums.len());
    let mut state = vec![0; STATE];
    state[..=FIRST_PROCESS].copy_from_slice(&[1, 1, sum as i64]);
    state[FIRST_PROCESS + DEFINITION] = model.sums[sum].definition as i64;
    let channel = Channel::new(&[Item { kind: 0, number: 1 }; ITEMS]);
    state[FIRST_PAIR..FIRST_PAIR + PAIR].copy_from_slice(&Pair::new(channel, &[1, 1]).numbers());
    hand_in(calls, buffers, &state);
    let locals = (0..model.sums[sum].locals).map(|local| FIRST_PROCESS + 1 + local);
    for place in locals.chain([2, 4, 6, FIRST_VALUE, FIRST_VALUE + 1].map(|number| FIRST_PAIR + number)) {
        tried_with(&[HIGHEST, HIGHEST + 1, LOWEST, LOWEST - 1], place, calls, buffers);
    }
}

/// A state over the model that no run need ever reach.
pub(crate) fn some_state(random: &mut Random, model: &model::Model) -> Vec<i64> {
    let mut state = vec![0; STATE];
    let processes = *random.pick(&[0, 1, 3, 5, 8, 20, 256]);
    let pairs = *random.pick(&[0, 1, 2, 5, 20, 256]);
    state[0] = processes as i64;
    state[1] = pairs as i64;
    for process in state[FIRST_PROCESS..FIRST_PAIR].chunks_mut(PROCESS).take(processes) {
        let sum = random.below(model.sums.len());
        process[0] = sum as i64;
        for local in &mut process[1..1 + model.sums[sum].locals] {
            *local = some_value(random);
        }
        process[DEFINITION] = model.sums[sum].definition as i64;
    }
    let mut lit = std::collections::BTreeSet::new();
    while lit.len() < pairs {
        let values = [some_value(random), some_value(random)];
        lit.insert(Pair::new(some_channel(random, model), &values[..=random.below(2)]));
    }
    for (place, pair) in state[FIRST_PAIR..].chunks_mut(PAIR).zip(lit) {
        place.copy_from_slice(&pair.numbers());
    }
    state
}

/// One to three names of the model and numbers.
fn some_channel(random: &mut Random, model: &model::Model) -> Channel {
    let mut items = [Item::default(); ITEMS];
    for item in &mut items {
        *item = if model.channel_names > 0 && random.chance(60) {
            Item { kind: 1, number: random.below(model.channel_names) as i64 }
        } else {
            Item { kind: 0, number: random.between(-1, 3) }
        };
    }
    Channel::new(&items[..=random.below(ITEMS)])
}

fn some_value(random: &mut Random) -> i64 {
    match random.below(60) {
        0 => HIGHEST - random.between(0, 1),
        1 => LOWEST + random.between(0, 1),
        2 => *random.pick(&[i64::from(i32::MAX) + 1, i64::from(i32::MIN) - 1]),
        3..=9 => random.between(-300, 300),
        _ => random.between(-3, 9),
    }
}

/// Does one thing to a state that mostly makes it none.
fn spoil(random: &mut Random, state: &mut [i64]) {
    let process = FIRST_PROCESS + PROCESS * some_index(random, state[0], PROCESSES);
    let pair = FIRST_PAIR + PAIR * some_index(random, state[1], PAIRS);
    let odd = *random.pick(&[-1, 1, 2, 3, (1 << 32) + 1, HIGHEST + 1, LOWEST - 1, i64::MAX, i64::MIN]);
    match random.below(12) {
        // Counts.
        0 => state[random.below(2)] = *random.pick(&[-1, 0, 1, 255, 256, 257, i64::MAX, i64::MIN]),
        1 => {
            let which = random.below(2);
            state[which] = state[which].wrapping_add(*random.pick(&[-1, 1]));
        }
        // Sum numbers, locals and numbers past the last process.
        2 => state[process] = odd,
        3 => state[process + 1 + random.below(PROCESS - 1)] = odd,
        4 => {
            let definition = &mut state[process + DEFINITION];
            *definition = definition.wrapping_add(*random.pick(&[-1, 1]));
        }
        // Parts of a pair.
        5 => state[pair + random.below(PAIR)] = odd,
        6 => {
            let number = &mut state[pair + random.below(PAIR)];
            *number = number.wrapping_add(*random.pick(&[-1, 1]));
        }
        // Pairs doubled and in the wrong order.
        7 => state.copy_within(FIRST_PAIR..FIRST_PAIR + PAIR, FIRST_PAIR + PAIR),
        8 => state[FIRST_PAIR..FIRST_PAIR + 2 * PAIR].rotate_left(PAIR),
        // The number of items alone; items in another order.
        9 => state[pair] = *random.pick(&[0, 1, 2, 3, 4, -1]),
        10 => state[pair + 1..pair + 1 + 2 * ITEMS].rotate_left(2),
        _ => state[random.below(STATE)] = odd,
    }
}

/// An index at the end of what is used, in it, or anywhere.
fn some_index(random: &mut Random, used: i64, most: usize) -> usize {
    let used = usize::try_from(used).unwrap_or(0).min(most);
    let index = match random.below(4) {
        0 => used,
        1 => used.saturating_sub(1),
        2 => random.below(used),
        _ => random.below(most),
    };
    index.min(most - 1)
}

/// The changes that make the state buffer hold these numbers.
fn hand_in(calls: &mut Vec<Call>, buffers: &mut Buffers, state: &[i64]) {
    for (place, &number) in state.iter().enumerate() {
        if buffers.state[place] != number {
            buffers.state[place] = number;
            calls.push(Call::SetState { place, number });
        }
    }
}

/// A listing, a report, the draws that 01 names and some others, each with a step.
fn listed_and_stepped(random: &mut Random, calls: &mut Vec<Call>, buffers: &mut Buffers, times: usize) {
    let first = calls.len();
    calls.extend([Call::List { lengths: RIGHT }, Call::Report { lengths: RIGHT }]);
    let number = random.number();
    let draws = [Draw::Exactly(u64::MAX), Draw::Total, Draw::Inside(number), Draw::Last, Draw::Exactly(0)];
    for draw in draws.iter().take(1 + times) {
        calls.push(Call::Step { lengths: RIGHT, draw: *draw });
    }
    let waiting = generate::some_waiting(random);
    calls.push(Call::Timed { lengths: RIGHT, draw: Draw::Inside(number), waiting });
    calls.extend([generate::some_search(random), generate::some_run(random)]);
    for call in &calls[first..] {
        buffers.make(&SECOND, call);
    }
}

// Saves handed in directly.

/// Saves that no call left: states that fit the model and spoilt ones under names that are some or none, in any place.
fn handed_saves(random: &mut Random) -> Vec<Call> {
    let text = generate::lively(random);
    let read = model::read(&text).expect("a lively text is legal");
    let mut calls = vec![Call::Open { text, lengths: RIGHT }];
    let mut buffers = Buffers::default();
    buffers.make(&SECOND, &calls[0]);
    for _ in 0..3 {
        let mut held = vec![0; SAVES];
        for place in held.chunks_mut(saves::PLACE) {
            if random.chance(70) {
                let name = random.pick(&generate::SAVE_NAMES).as_bytes();
                place[..saves::NAME].copy_from_slice(&saves::pack(name));
                let state = if random.chance(50) { vec![0; STATE] } else { small_state(random, &read) };
                place[saves::NAME..saves::CLOCK].copy_from_slice(&state);
                place[saves::CLOCK..].copy_from_slice(&[random.between(0, 9), *random.pick(&[0, 1, i64::MAX])]);
            }
        }
        hand_in_saves(&mut calls, &mut buffers, &held);
        stored(random, &mut calls, &mut buffers, 3);
        for _ in 0..*random.pick(&[1, 1, 2]) {
            let place = saves::PLACE * random.below(saves::PLACES);
            spoil_save(random, &mut held[place..place + saves::PLACE]);
        }
        hand_in_saves(&mut calls, &mut buffers, &held);
        stored(random, &mut calls, &mut buffers, 2);
    }
    calls
}

/// A state over the model with few processes and pairs.
fn small_state(random: &mut Random, model: &model::Model) -> Vec<i64> {
    loop {
        let state = some_state(random, model);
        if state[0] <= 5 && state[1] <= 5 {
            return state;
        }
    }
}

/// Does one thing to a place of the saves that mostly makes it none.
fn spoil_save(random: &mut Random, place: &mut [i64]) {
    match random.below(8) {
        0 => place[..saves::NAME].copy_from_slice(&[0; saves::NAME]),
        1 => place[..saves::NAME].rotate_left(1),
        // A byte of the name that is no letter, or a letter after an end.
        2 | 3 => {
            let byte = 8 * random.below(8);
            let other = *random.pick(&[0, 1, 0x40, 0x5b, 0x60, 0x7b, 0xff, 0x61]);
            let number = &mut place[random.below(saves::NAME)];
            *number = (*number & !(0xff << byte)) | (other << byte);
        }
        4 => place[random.below(saves::NAME)] = *random.pick(&[-1, i64::MIN, i64::MAX, 1]),
        5 => place[saves::CLOCK + random.below(2)] = *random.pick(&[-1, i64::MIN, i64::MAX, 1]),
        _ => spoil(random, &mut place[saves::NAME..saves::CLOCK]),
    }
}

/// Some saves, returns and forgets.
fn stored(random: &mut Random, calls: &mut Vec<Call>, buffers: &mut Buffers, times: usize) {
    for _ in 0..times {
        let call = generate::some_stored(random);
        buffers.make(&SECOND, &call);
        calls.push(call);
    }
}

/// The changes that make the saves hold these numbers.
fn hand_in_saves(calls: &mut Vec<Call>, buffers: &mut Buffers, held: &[i64]) {
    for (place, &number) in held.iter().enumerate() {
        if buffers.saves[place] != number {
            buffers.saves[place] = number;
            calls.push(Call::SetSaves { place, number });
        }
    }
}

// Searches handed in directly.

/// Searches that no call left: of another run, from another state, with other numbers, and spoilt ones.
fn handed_searches(random: &mut Random) -> Vec<Call> {
    let text = mazes::maze(random);
    let read = model::read(&text).expect("a maze is legal");
    let mut calls = vec![Call::Open { text, lengths: RIGHT }];
    let mut buffers = Buffers::default();
    buffers.make(&SECOND, &calls[0]);
    for _ in 0..6 {
        for call in mazes::begun(random) {
            make(&mut calls, &mut buffers, call);
        }
        let mut held = buffers.search[..SEARCH].to_vec();
        for _ in 0..*random.pick(&[1, 1, 2, 3]) {
            spoil_search(random, &mut held, &read, &buffers);
        }
        for (place, &number) in held.iter().enumerate() {
            if buffers.search[place] != number {
                make(&mut calls, &mut buffers, Call::SetSearch { place, number });
            }
        }
        let left = COUNTED.saturating_sub(held[pieces::COUNT] as u64);
        for _ in 0..4 {
            let number = *random.pick(&[0, 1, 1, 2, 5, left, left.saturating_add(1)]);
            make(&mut calls, &mut buffers, Call::Carry { lengths: RIGHT, number });
        }
        make(&mut calls, &mut buffers, mazes::begun(random)[0].clone());
        make(&mut calls, &mut buffers, Call::EndSearch);
        make(&mut calls, &mut buffers, generate::some_step(random));
    }
    calls
}

/// Adds a call, made on these buffers, if it doesn't walk too far.
fn make(calls: &mut Vec<Call>, buffers: &mut Buffers, call: Call) {
    let exact = buffers.exact(&call);
    if !buffers.walks_many(&exact) {
        buffers.make(&SECOND, &exact);
        calls.push(exact);
    }
}

/// Does one thing to a search that often leaves one.
fn spoil_search(random: &mut Random, search: &mut [i64], model: &Model, buffers: &Buffers) {
    match random.below(9) {
        0 => search[pieces::DEPTH_PLACE] = random.between(0, 9),
        1 => search[pieces::WAIT] = random.between(0, 9),
        2 => search[pieces::COUNT] = *random.pick(&[0, 1, COUNTED as i64 - 5, COUNTED as i64, COUNTED as i64 + 1, -1]),
        3 => search[pieces::MET] = *random.pick(&[0, 0, 1, 1, 2, -1]),
        4 | 5 => another_run(random, search, buffers),
        6 => search[pieces::START..].copy_from_slice(&small_state(random, model)),
        7 => spoil(random, &mut search[pieces::START..]),
        _ => search[pieces::LENGTH + random.below(1 + DEPTH)] = *random.pick(&[0, 1, 2, 3, 9, 1_024, -1, i64::MAX]),
    }
}

/// Any run from the present state, at which a search to the greatest depth began, in the place of the one walked last.
fn another_run(random: &mut Random, search: &mut [i64], buffers: &Buffers) {
    let held = engine::held(&buffers.model[..MODEL], &buffers.state[..STATE]);
    let Some(run) = held.and_then(|(model, state)| Walk::new(model, state, DEPTH).take(1 + random.below(60)).last())
    else {
        return;
    };
    search[pieces::LENGTH..pieces::START].fill(0);
    search[pieces::LENGTH] = run.entries.len() as i64;
    for (place, entry) in search[pieces::RUN..].iter_mut().zip(run.entries) {
        *place = entry as i64;
    }
}

// Model buffers handed in directly.

/// Model buffers that no opening left: texts of every kind written into one, whole or spoilt.
fn handed_models(random: &mut Random) -> Vec<Call> {
    let mut calls = Vec::new();
    let mut buffers = Buffers::default();
    for _ in 0..3 {
        let text = generate::some_text(random);
        let mut held = vec![0; MODEL];
        let size = text.len().min(MODEL - TEXT_START);
        held[..TEXT_START].copy_from_slice(&(size as u16).to_le_bytes());
        held[TEXT_START..TEXT_START + size].copy_from_slice(&text[..size]);
        hand_in_model(&mut calls, &mut buffers, &held);
        if let Ok(read) = model::read(&text[..size]) {
            let state = some_state(random, &read);
            hand_in(&mut calls, &mut buffers, &state);
        }
        listed_and_stepped(random, &mut calls, &mut buffers, 2);
        spoil_model(random, &mut held, size);
        hand_in_model(&mut calls, &mut buffers, &held);
        listed_and_stepped(random, &mut calls, &mut buffers, 1);
    }
    calls
}

fn spoil_model(random: &mut Random, held: &mut [u8], size: usize) {
    match random.below(5) {
        // The length alone.
        0 => held[0] = held[0].wrapping_add(*random.pick(&[1, 255])),
        1 => held[1] = *random.pick(&[0, 64, 128, 255]),
        // A byte past the text: the first, the last, any.
        2 => {
            let any = TEXT_START + size + random.below(MODEL);
            let place = *random.pick(&[TEXT_START + size, MODEL - 1, any]);
            held[place.min(MODEL - 1)] = *random.pick(&[b' ', 1, 255]);
        }
        // The length and a blank or a byte that no text has at the end.
        3 if size < MODEL - TEXT_START => {
            held[..TEXT_START].copy_from_slice(&(size as u16 + 1).to_le_bytes());
            held[TEXT_START + size] = *random.pick(&[b' ', b';', 0]);
        }
        // A byte of the text.
        _ => held[TEXT_START + random.below(size)] = random.number() as u8,
    }
}

fn hand_in_model(calls: &mut Vec<Call>, buffers: &mut Buffers, held: &[u8]) {
    for (place, &byte) in held.iter().enumerate() {
        if buffers.model[place] != byte {
            buffers.model[place] = byte;
            calls.push(Call::SetModel { place, byte });
        }
    }
}
