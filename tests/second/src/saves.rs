//! Named states to come back to (02, note 2), and the buffer of signed 64-bit numbers that holds them.

use crate::clock::Clock;
use crate::model::Model;
use crate::state::{self, State};

/// How many names there may be.
pub const PLACES: usize = 8;
/// The most letters of a name.
pub const LETTERS: usize = 16;
/// Letters in a number of a packed name.
const PACKED: usize = 8;
/// Numbers of a packed name.
pub const NAME: usize = LETTERS / PACKED;
/// Where the clock's two numbers stand in a place, after name and state.
pub const CLOCK: usize = NAME + state::BUFFER;
/// Numbers of a place.
pub const PLACE: usize = CLOCK + 2;
/// The length of the saves buffer.
pub const BUFFER: usize = PLACES * PLACE;

#[derive(Clone, Debug, PartialEq, Eq)]
pub struct Save {
    pub name: Vec<u8>,
    pub state: State,
    pub clock: Clock,
}

#[derive(Clone, Debug, PartialEq, Eq)]
pub struct Saves {
    /// As many as there may be; `None` is an empty place.
    pub places: Vec<Option<Save>>,
}

/// 1 to 16 letters: A to Z, a to z.
pub fn is_name(name: &[u8]) -> bool {
    (1..=LETTERS).contains(&name.len()) && name.iter().all(u8::is_ascii_alphabetic)
}

/// A name as two numbers: the first eight letters, then the others, each number's first letter in its lowest byte.
pub fn pack(name: &[u8]) -> [i64; NAME] {
    let mut bytes = [0; LETTERS];
    bytes[..name.len()].copy_from_slice(name);
    let number = |first: usize| i64::from_le_bytes(std::array::from_fn(|byte| bytes[first + byte]));
    [number(0), number(PACKED)]
}

/// The name that two numbers hold, if they hold one.
fn unpack(numbers: &[i64]) -> Option<Vec<u8>> {
    let mut name: Vec<u8> = numbers.iter().flat_map(|number| number.to_le_bytes()).collect();
    let length = name.iter().rposition(|&byte| byte != 0).map_or(0, |last| last + 1);
    name.truncate(length);
    is_name(&name).then_some(name)
}

impl Saves {
    /// The number of the place of a name.
    pub fn place(&self, name: &[u8]) -> Option<usize> {
        self.places.iter().position(|place| place.as_ref().is_some_and(|save| save.name == name))
    }

    pub fn find(&self, name: &[u8]) -> Option<&Save> {
        self.places.iter().flatten().find(|save| save.name == name)
    }

    pub fn first_empty(&self) -> Option<usize> {
        self.places.iter().position(Option::is_none)
    }

    /// Question 11 of a saves buffer: what it holds over this model, if it holds it.
    pub fn read_buffer(model: &Model, buffer: &[i64]) -> Option<Saves> {
        let mut saves = Saves { places: Vec::new() };
        for part in buffer.chunks(PLACE) {
            let place = read_place(model, part)?;
            if place.as_ref().is_some_and(|save| saves.find(&save.name).is_some()) {
                return None;
            }
            saves.places.push(place);
        }
        Some(saves)
    }

    pub fn write_buffer(&self, model: &Model, buffer: &mut [i64]) {
        buffer.fill(0);
        for (place, part) in self.places.iter().zip(buffer.chunks_mut(PLACE)) {
            if let Some(save) = place {
                part[..NAME].copy_from_slice(&pack(&save.name));
                state::write_buffer(model, &save.state, &mut part[NAME..CLOCK]);
                part[CLOCK..].copy_from_slice(&[save.clock.ticks as i64, save.clock.draws as i64]);
            }
        }
    }
}

/// The outer `None`: the place is neither empty nor a save. The inner `None`: it is empty.
fn read_place(model: &Model, part: &[i64]) -> Option<Option<Save>> {
    if part.iter().all(|&number| number == 0) {
        return Some(None);
    }
    let name = unpack(&part[..NAME])?;
    let state = state::read_buffer(model, &part[NAME..CLOCK])?;
    // None of its numbers is negative; both are in range then.
    let [ticks, draws] = [part[CLOCK], part[CLOCK + 1]].map(|number| u64::try_from(number).ok());
    let clock = Clock { ticks: ticks?, draws: draws? };
    Some(Some(Save { name, state, clock }))
}
