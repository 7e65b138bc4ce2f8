//! The bench sheet: what the program `enabled` of 01 prints.

use crate::calls::{Buffers, SECOND};
use crate::{list, Answer, LISTING, MODEL, STATE};

/// How many bytes a program reads of a model: one past the limit is enough to refuse.
pub const READ: u64 = 16_385;

pub const HEADER: &str = "kind,place,branch,partner,pbranch,pair,weight";

/// The sheet of a text.
pub fn sheet(text: &[u8]) -> String {
    let (buffers, opened) = Buffers::opened(&SECOND, text);
    if opened.number != 0 {
        return refusal(&opened);
    }
    let mut listing = vec![0; LISTING];
    let listed = list(&buffers.model[..MODEL], &buffers.state[..STATE], &mut listing);
    if listed.number != 0 {
        return refusal(&listed);
    }
    format!("{HEADER}\n{}total,{}\n", rows(&listing, listed.count), listed.total)
}

fn refusal(answer: &Answer) -> String {
    if answer.number == 12 {
        format!("refused,{},{},{}\n", answer.number, answer.place, answer.branch)
    } else {
        format!("refused,{},{}\n", answer.number, answer.place)
    }
}

/// The first `count` entries of a listing buffer, a line each, in buffer order.
pub fn rows(listing: &[u64], count: u64) -> String {
    let mut rows = String::new();
    for entry in listing.chunks(7).take(count as usize) {
        let fields: Vec<String> = entry.iter().map(u64::to_string).collect();
        rows.push_str(&fields.join(","));
        rows.push('\n');
    }
    rows
}
