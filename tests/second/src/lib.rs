//! A second engine for the Beacon Calculus, written from 01 (the scope paper), 02 (its changes)
//! and the decisions on their open points alone. It is slow and plain on purpose: it is there to be compared with.
//!
//! Each call reads the model's text anew from the model buffer, unless `model::keep_last` was called.

#![forbid(unsafe_code)]

pub mod calls;
pub mod clock;
pub mod engine;
pub mod eval;
pub mod generate;
pub mod independent;
pub mod limits;
pub mod listing;
pub mod mazes;
pub mod model;
pub mod names;
pub mod pieces;
pub mod ran;
pub mod reader;
pub mod runs;
pub mod saves;
pub mod script;
pub mod search;
pub mod sheet;
pub mod state;
pub mod syntax;
pub mod tokens;
pub mod walks;

pub use clock::Clock;
pub use engine::{forget, list, open, open_steady, report, return_to, save, step, timed_step, Opening};
pub use pieces::{begin, carry_on, Progress};
pub use ran::{run, Ran, Running};
pub use search::{search, Found};

/// Length of the model buffer in bytes: the text's length (2 bytes, the low one first), the text,
/// zeros.
pub const MODEL: usize = 16_386;
/// Length of the state buffer in signed 64-bit numbers.
pub const STATE: usize = 5_122;
/// Length of the listing buffer in unsigned 64-bit numbers.
pub const LISTING: usize = 7_168;
/// Length of the report buffer in unsigned 64-bit numbers: one for each definition there may be.
pub const REPORT: usize = 64;
/// Length of the saves buffer in signed 64-bit numbers: eight places of a name in two numbers, a state and a
/// clock in two numbers.
pub const SAVES: usize = 41_008;
/// Length of the search buffer in signed 64-bit numbers: eight and the five before them, then a state.
pub const SEARCH: usize = 5_135;

/// Numbers of the events that the program `calls` lends to a run, which may be lent any number of them.
pub const EVENTS: usize = 8_192;

const _: () = assert!(EVENTS == listing::ENTRIES * ran::EVENT);
const _: () = assert!(saves::BUFFER == SAVES && pieces::START + STATE == SEARCH);
const _: () = assert!(model::BUFFER == MODEL && state::BUFFER == STATE);
const _: () = assert!(listing::BUFFER == LISTING && limits::DEFINITIONS == REPORT);

/// All that a call's result carries.
#[derive(Clone, Copy, Debug, Default, PartialEq, Eq)]
pub struct Answer {
    /// 0 for acceptance, or the number of the first question with the answer no.
    pub number: u64,
    /// Of 1 to 10 and 29 a byte place, of 12 a process place, else 0.
    pub place: u64,
    /// Of 12 a branch, else 0.
    pub branch: u64,
    /// How many entries the listing has: of 0 and 15 to 19 from list, step and report.
    pub count: u64,
    /// The sum of the weights: where `count` is carried.
    pub total: u64,
    /// The number of the entry that an accepted step took.
    pub chosen: u64,
}

impl Answer {
    /// An answer that carries nothing but its number.
    pub fn refusal(number: u64) -> Answer {
        Answer { number, ..Answer::default() }
    }
}
