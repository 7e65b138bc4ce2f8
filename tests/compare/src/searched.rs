//! What the searches of a comparison must have met.

use second::generate::{Buffers, Call, Depth};
use second::model::{Action, Model};
use second::runs::Runs;
use second::{engine, search, Found, MODEL, STATE};

/// Depths from one below the least to one above the greatest, by themselves.
const DEPTHS: [&str; 10] =
    ["depth 0", "depth 1", "depth 2", "depth 3", "depth 4", "depth 5", "depth 6", "depth 7", "depth 8", "depth 9"];
/// Refusals that a run can meet: without a run found, and beside one.
const REFUSALS: [(u64, &str, &str); 6] = [
    (12, "27 for a 12", "a run found beside a 12"),
    (13, "27 for a 13", "a run found beside a 13"),
    (14, "27 for a 14", "a run found beside a 14"),
    (17, "27 for a 17", "a run found beside a 17"),
    (18, "27 for an 18", "a run found beside an 18"),
    (19, "27 for a 19", "a run found beside a 19"),
];
const PRESENT: &str = "27 for the present listing";
const TIE: &str = "a run found, another as long";
const LONGER: &str = "a run found, a longer one before it by its numbers";
const IDLE: &str = "a wait of weight zero";
const UNKNOWN: &str = "a name that no wait has";
const EMPTY: &str = "an empty name";
const LONG: &str = "a name of more than 16 bytes";

/// All that must have been met.
pub fn all() -> Vec<&'static str> {
    let refusals = REFUSALS.iter().flat_map(|(_, alone, beside)| [*alone, *beside]);
    DEPTHS.into_iter().chain(refusals).chain([PRESENT, TIE, LONGER, IDLE, UNKNOWN, EMPTY, LONG]).collect()
}

/// What a search that isn't refused by 1 or 11 meets.
pub fn met(call: &Call, found: &Found, lent: &Buffers) -> Vec<&'static str> {
    let Call::Search { name, depth: Depth::Exactly(depth), .. } = call else { return Vec::new() };
    if [1, 11].contains(&found.number) {
        return Vec::new();
    }
    let mut met = Vec::from_iter(DEPTHS.get(*depth as usize).copied());
    let held = engine::held(&lent.model[..MODEL], &lent.state[..STATE]);
    if let (Some((model, state)), Some(depth)) = (held, search::depth_of(*depth)) {
        met.extend(of_name(&model, name));
        met.extend(of_runs(&Runs::of(&model, &state, name, depth), found));
    }
    met
}

fn of_name(model: &Model, name: &[u8]) -> impl Iterator<Item = &'static str> {
    let mut branches = model.sums.iter().flat_map(|sum| &sum.branches);
    let unknown = !branches.any(|branch| matches!(&branch.action, Action::Wait(wait) if wait == name));
    let facts = [(unknown, UNKNOWN), (name.is_empty(), EMPTY), (name.len() > 16, LONG)];
    facts.into_iter().filter(|(is, _)| *is).map(|(_, what)| what)
}

fn of_runs(runs: &Runs, found: &Found) -> Vec<&'static str> {
    let refusals = REFUSALS.iter().filter(|(number, ..)| runs.refusals.contains(number));
    let mut met: Vec<&str> =
        refusals.map(|&(_, alone, beside)| if found.number == 27 { alone } else { beside }).collect();
    let first = &found.run[..found.length as usize];
    let tie = runs.performing.iter().filter(|run| run.len() == first.len()).count() > 1;
    let longer = runs.performing.iter().any(|run| run.len() > first.len() && run[..] < *first);
    let present = found.number == 27 && runs.all.len() == 1 && runs.refusals.iter().all(|&number| number < 15);
    let facts = [(present, PRESENT), (tie, TIE), (longer, LONGER), (runs.idle, IDLE)];
    met.extend(facts.iter().filter(|(is, _)| *is).map(|(_, what)| what));
    met
}
