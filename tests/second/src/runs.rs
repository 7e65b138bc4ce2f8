//! Every run of at most a depth, as 02 says what one is (note 8): the entries are above weight zero and all taken
//! unrefused. They are gathered in no order that a search would need.

use crate::engine::{self, Present};
use crate::listing::{Entry, Refused};
use crate::model::{Action, Model};
use crate::state::State;
use std::collections::BTreeSet;
use std::rc::Rc;

/// All runs from a state, and what they meet.
#[derive(Debug)]
pub struct Runs {
    depth: usize,
    name: Vec<u8>,
    /// The entry numbers of every run, the empty one included.
    pub all: Vec<Vec<u64>>,
    /// Of those that perform the action: whose last entry is a wait of the name.
    pub performing: Vec<Vec<u64>>,
    /// 12 to 14 and 17 to 19, where some run meets one.
    pub refusals: BTreeSet<u64>,
    /// Does a listing on the way have such a wait with weight zero?
    pub idle: bool,
}

impl Runs {
    pub fn of(model: &Rc<Model>, state: &State, name: &[u8], depth: usize) -> Runs {
        let mut runs = Runs {
            depth,
            name: name.to_vec(),
            all: Vec::new(),
            performing: Vec::new(),
            refusals: BTreeSet::new(),
            idle: false,
        };
        runs.gather(model, state.clone(), &mut Vec::new());
        runs
    }

    /// The run that is answered (note 9): fewest entries, then the one whose numbers come first from the left.
    pub fn first(&self) -> Option<&Vec<u64>> {
        self.performing.iter().min_by_key(|run| (run.len(), *run))
    }

    /// Gathers this run, which ends in this state, and all that go on from it.
    fn gather(&mut self, model: &Rc<Model>, state: State, run: &mut Vec<u64>) {
        self.all.push(run.clone());
        // Refusals of a listing count after fewer entries than the depth.
        if run.len() == self.depth {
            return;
        }
        let present = match engine::listed(model, state) {
            Ok(present) => present,
            Err(refused) => {
                self.refusals.insert(number(refused));
                return;
            }
        };
        for (entry, taken) in present.listing.entries.iter().enumerate() {
            let performs = self.is_wait(&present, taken);
            if taken.weight == 0 {
                self.idle |= performs;
                continue;
            }
            let after = match engine::taken(&present, taken) {
                Ok(after) => after,
                Err(refused) => {
                    self.refusals.insert(refused);
                    continue;
                }
            };
            run.push(entry as u64);
            if performs {
                self.performing.push(run.clone());
            }
            self.gather(model, after, run);
            run.pop();
        }
    }

    /// Is an entry a wait of the name?
    fn is_wait(&self, present: &Present, entry: &Entry) -> bool {
        let sum = present.state.processes[entry.place].sum;
        let action = &present.model.sums[sum].branches[entry.branch].action;
        matches!(action, Action::Wait(wait) if *wait == self.name)
    }
}

fn number(refused: Refused) -> u64 {
    match refused {
        Refused::NoValue { .. } => 12,
        Refused::TooManyEntries => 13,
        Refused::TotalTooLarge => 14,
    }
}
