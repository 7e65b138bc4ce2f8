//! Independent moves (02, note 14): two entries of one listing whose order doesn't matter.

use crate::listing::{Entry, Kind, FIELDS, KIND, PARTNER, PLACE, WEIGHT};
use crate::model::Model;
use crate::state::State;

/// The places of the processes that act when an entry is taken.
fn acting(entry: &[u64]) -> Vec<u64> {
    if entry[KIND] == Kind::Handshake as u64 {
        vec![entry[PLACE], entry[PARTNER]]
    } else {
        vec![entry[PLACE]]
    }
}

/// Of two entries as a listing buffer has them, whatever stands there: have both their seven numbers and a weight above
/// zero, is neither a launch nor a kill, and have they no process in common?
pub fn independent(entry: &[u64], other: &[u64]) -> bool {
    let beacon = |kind: u64| kind == Kind::Launch as u64 || kind == Kind::Kill as u64;
    let fits = |entry: &[u64]| entry.len() == FIELDS && entry[WEIGHT] > 0 && !beacon(entry[KIND]);
    fits(entry) && fits(other) && acting(entry).iter().all(|place| !acting(other).contains(place))
}

/// How many processes a branch leaves in the place of the one that takes it.
fn left(model: &Model, state: &State, place: usize, branch: usize) -> usize {
    let branch = &model.sums[state.processes[place].sum].branches[branch];
    branch.continuation.iter().map(|item| model.processes_of_item(item)).sum()
}

/// The entry as the listing between has it, after one that is independent of it was taken from this state: a place
/// moves by what is left at each acting place below it, less one (decision A104).
pub fn moved(entry: &Entry, taken: &Entry, model: &Model, state: &State) -> Entry {
    let mut acted = vec![(taken.place, left(model, state, taken.place, taken.branch))];
    if taken.kind == Kind::Handshake {
        acted.push((taken.partner, left(model, state, taken.partner, taken.partner_branch)));
    }
    let after = |place: usize| {
        let below: Vec<usize> = acted.iter().filter(|(acting, _)| *acting < place).map(|(_, left)| *left).collect();
        place + below.iter().sum::<usize>() - below.len()
    };
    let partner = if entry.kind == Kind::Handshake { after(entry.partner) } else { entry.partner };
    Entry { place: after(entry.place), partner, ..*entry }
}
