//! Stepping during a search (02, note 10): a search that one call begins and others carry on, and the buffer of signed
//! 64-bit numbers that holds it from one to the next (docs/LAYOUT.md).

use crate::engine;
use crate::model::Model;
use crate::search::{depth_of, Found, Walk, DEPTH};
use crate::state::{self, State};
use crate::{Answer, MODEL, SEARCH, STATE};
use std::rc::Rc;

// The search buffer.
pub const DEPTH_PLACE: usize = 0;
/// One more than the number of the wait's name, or 0 if no wait has that name.
pub const WAIT: usize = 1;
pub const COUNT: usize = 2;
/// Was a refusal met on the way up to the run walked last?
pub const MET: usize = 3;
/// Of the run walked last.
pub const LENGTH: usize = 4;
pub const RUN: usize = 5;
/// The state at which it began.
pub const START: usize = RUN + DEPTH;

/// The most that a count can be.
pub const COUNTED: u64 = 9_000_000_000_000_000_000;

/// All that the result of carrying a search on carries.
#[derive(Clone, Copy, Debug, Default, PartialEq, Eq)]
pub struct Progress {
    /// 0, or the number of the refusal.
    pub number: u64,
    /// How many runs were walked since the beginning.
    pub count: u64,
    /// 1 if the search ended.
    pub ended: u64,
    /// As of a search, once it ended.
    pub length: u64,
    pub run: [u64; DEPTH],
}

impl Progress {
    pub fn refusal(number: u64) -> Progress {
        Progress { number, ..Progress::default() }
    }

    /// One that is still under way.
    pub fn going(count: u64) -> Progress {
        Progress { count, ..Progress::default() }
    }

    pub fn ended(count: u64, found: Found) -> Progress {
        Progress { number: found.number, count, ended: 1, length: found.length, run: found.run }
    }
}

/// A search under way.
struct Search {
    depth: usize,
    /// The number of the wait's name; `None`: no wait has it.
    wait: Option<usize>,
    count: u64,
    met: bool,
    /// The run walked last; `None` if none was.
    last: Option<Vec<u64>>,
    start: State,
}

/// Begins a search and walks nothing. Questions 1, 11 and 26.
pub fn begin(model: &[u8], state: &[i64], search: &mut [i64], name: &[u8], depth: u64) -> Answer {
    let (model, state, _) = match under_way(model, state, search) {
        Err(number) => return Answer::refusal(number),
        Ok(held) => held,
    };
    let Some(depth) = depth_of(depth) else {
        return Answer::refusal(26);
    };
    let wait = model.wait_names().iter().position(|wait| *wait == name);
    Search { depth, wait, count: 0, met: false, last: None, start: state }.write(&model, search);
    Answer::default()
}

/// Carries a search on by so many runs. Questions 1, 11, 28 and 27.
pub fn carry_on(model: &[u8], state: &[i64], search: &mut [i64], number: u64) -> Progress {
    let (model, _, under_way) = match under_way(model, state, search) {
        Err(number) => return Progress::refusal(number),
        Ok(held) => held,
    };
    let Some(mut held) = under_way.filter(|held| number <= COUNTED - held.count) else {
        return Progress::refusal(28);
    };
    let progress = held.walk(&model, number);
    if progress.ended == 1 {
        search.fill(0);
    } else {
        held.write(&model, search);
    }
    progress
}

/// What the three buffers hold; no search if none is under way.
type UnderWay = (Rc<Model>, State, Option<Search>);

/// Questions 1 and 11.
fn under_way(model: &[u8], state: &[i64], search: &[i64]) -> Result<UnderWay, u64> {
    if model.len() != MODEL || state.len() != STATE || search.len() != SEARCH {
        return Err(1);
    }
    let (model, state) = engine::held(model, state).ok_or(11u64)?;
    let held = Search::read(&model, search).ok_or(11u64)?;
    Ok((model, state, held))
}

impl Search {
    /// Walks so many runs more, or up to the end.
    fn walk(&mut self, model: &Rc<Model>, number: u64) -> Progress {
        if number == 0 {
            return Progress::going(self.count);
        }
        let name = self.wait.map(|wait| model.wait_names()[wait].as_slice());
        let mut walk = self.onwards(model);
        let mut next = walk.next();
        for _ in 0..number {
            let Some(run) = next else { break };
            self.count += 1;
            if name.is_some_and(|name| walk.performs(&run, name)) {
                return Progress::ended(self.count, Found::run(&run.entries));
            }
            self.last = Some(run.entries);
            // What comes after this run doesn't count before the next one is walked.
            self.met |= walk.meets_refusal;
            // The call that walks the last run says that it ended (decision A58).
            next = walk.next();
        }
        match next {
            Some(_) => Progress::going(self.count),
            None if self.met || walk.meets_refusal => Progress::ended(self.count, Found::refusal(27)),
            None => Progress::ended(self.count, Found::default()),
        }
    }

    /// The walk of the runs after the one walked last.
    fn onwards(&self, model: &Rc<Model>) -> Walk {
        let (model, start) = (model.clone(), self.start.clone());
        match &self.last {
            None => Walk::new(model, start, self.depth),
            Some(last) => Walk::after(model, start, self.depth, last).expect("the run walked last is one"),
        }
    }

    fn write(&self, model: &Model, buffer: &mut [i64]) {
        buffer.fill(0);
        buffer[DEPTH_PLACE] = self.depth as i64;
        buffer[WAIT] = self.wait.map_or(0, |wait| wait as i64 + 1);
        buffer[COUNT] = self.count as i64;
        buffer[MET] = i64::from(self.met);
        if let Some(last) = &self.last {
            buffer[LENGTH] = last.len() as i64;
            for (place, entry) in buffer[RUN..START].iter_mut().zip(last) {
                *place = *entry as i64;
            }
        }
        state::write_buffer(model, &self.start, &mut buffer[START..]);
    }

    /// Question 11 of a search buffer (decision A67). The outer `None`: it is neither zeros nor a search. The inner one:
    /// zeros.
    fn read(model: &Rc<Model>, buffer: &[i64]) -> Option<Option<Search>> {
        if buffer.iter().all(|&number| number == 0) {
            return Some(None);
        }
        let up_to = |place: usize, most: usize| usize::try_from(buffer[place]).ok().filter(|&number| number <= most);
        let depth = up_to(DEPTH_PLACE, DEPTH).filter(|&depth| depth > 0)?;
        let wait = up_to(WAIT, model.wait_names().len())?.checked_sub(1);
        let count = u64::try_from(buffer[COUNT]).ok().filter(|&count| count <= COUNTED)?;
        let met = up_to(MET, 1)? == 1;
        // Absent exactly when nothing was walked; the empty run stands at the beginning of all.
        let length = up_to(LENGTH, if count == 0 { 0 } else { depth })?;
        let (run, unused) = buffer[RUN..START].split_at(length);
        let run = run.iter().map(|&entry| u64::try_from(entry).ok()).collect::<Option<Vec<u64>>>()?;
        let start = state::read_buffer(model, &buffer[START..])?;
        if unused.iter().any(|&number| number != 0) {
            return None;
        }
        Walk::after(model.clone(), start.clone(), depth, &run)?;
        let last = (count > 0).then_some(run);
        Some(Some(Search { depth, wait, count, met, last, start }))
    }
}

/// Does carrying the search in these buffers on come upon more than so much?
pub fn takes_long(model: &[u8], state: &[i64], search: &[i64], number: u64, most: usize) -> bool {
    match under_way(model, state, search) {
        // One more: it is looked whether another run is left.
        Ok((model, _, Some(held))) if number > 0 && number <= COUNTED - held.count => {
            held.onwards(&model).takes_long(number + 1, most)
        }
        _ => false,
    }
}
