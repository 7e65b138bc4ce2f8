//! What the tests share: buffers with the calls on them.

#![allow(dead_code)]

use second::state::{DEFINITION, FIRST_PAIR, FIRST_PROCESS, PAIR, PROCESS, VALUE_COUNT};
use second::{Answer, Clock, Found, Opening, Progress, Ran, Running, LISTING, MODEL, REPORT, SAVES, SEARCH, STATE};

#[derive(Clone, PartialEq, Eq)]
pub struct Bench {
    pub model: Vec<u8>,
    pub state: Vec<i64>,
    pub listing: Vec<u64>,
    pub report: Vec<u64>,
    pub saves: Vec<i64>,
    pub under_way: Vec<i64>,
    pub clock: Clock,
}

pub type Entry = [u64; 7];

/// A pair on a channel of one item: its kind and number, count of values, values.
pub type Short = [i64; 5];

impl Bench {
    pub fn new() -> Bench {
        Bench {
            model: vec![0; MODEL],
            state: vec![0; STATE],
            listing: vec![0; LISTING],
            report: vec![0; REPORT],
            saves: vec![0; SAVES],
            under_way: vec![0; SEARCH],
            clock: Clock::default(),
        }
    }

    /// Buffers full of rubbish, to see what a call leaves alone.
    pub fn dirty() -> Bench {
        Bench {
            model: vec![7; MODEL],
            state: vec![-7; STATE],
            listing: vec![77; LISTING],
            report: vec![777; REPORT],
            saves: vec![-77; SAVES],
            under_way: vec![-777; SEARCH],
            clock: Clock { ticks: u64::MAX, draws: u64::MAX },
        }
    }

    /// An accepted text.
    pub fn of(text: &str) -> Bench {
        let mut bench = Bench::dirty();
        assert_eq!(bench.open(text), Answer::default(), "{text}");
        bench
    }

    pub fn open(&mut self, text: &str) -> Answer {
        self.open_bytes(text.as_bytes())
    }

    pub fn open_bytes(&mut self, text: &[u8]) -> Answer {
        let Bench { model, state, saves, under_way: search, clock, .. } = self;
        second::open(text, Opening { model, state, saves, search, clock })
    }

    pub fn open_steady(&mut self, text: &str) -> Answer {
        let Bench { model, state, saves, under_way: search, clock, .. } = self;
        second::open_steady(text.as_bytes(), Opening { model, state, saves, search, clock })
    }

    pub fn timed_step(&mut self, draw: u64, waiting: &[u16]) -> Answer {
        let Bench { model, state, listing, clock, .. } = self;
        second::timed_step(model, state, listing, waiting, draw, clock)
    }

    pub fn save(&mut self, name: &str) -> Answer {
        second::save(&self.model, &self.state, &mut self.saves, name.as_bytes(), self.clock)
    }

    pub fn return_to(&mut self, name: &str) -> Answer {
        second::return_to(&self.model, &mut self.state, &self.saves, name.as_bytes(), &mut self.clock)
    }

    pub fn forget(&mut self, name: &str) -> Answer {
        second::forget(&self.model, &self.state, &mut self.saves, name.as_bytes())
    }

    pub fn list(&mut self) -> Answer {
        second::list(&self.model, &self.state, &mut self.listing)
    }

    pub fn step(&mut self, draw: u64) -> Answer {
        second::step(&self.model, &mut self.state, &mut self.listing, draw)
    }

    pub fn report(&mut self) -> Answer {
        second::report(&self.model, &self.state, &mut self.report)
    }

    pub fn search(&self, depth: u64, name: &str) -> Found {
        second::search(&self.model, &self.state, name.as_bytes(), depth)
    }

    pub fn run(&mut self, words: &[u64], waiting: &[u16], events: &mut [u64], limit: u64) -> Ran {
        let Bench { model, state, clock, .. } = self;
        second::run(model, Running { state, words, waiting, events, limit, clock })
    }

    pub fn begin(&mut self, depth: u64, name: &str) -> Answer {
        second::begin(&self.model, &self.state, &mut self.under_way, name.as_bytes(), depth)
    }

    pub fn carry_on(&mut self, number: u64) -> Progress {
        second::carry_on(&self.model, &self.state, &mut self.under_way, number)
    }

    /// An accepted list's entries.
    pub fn entries(&mut self) -> Vec<Entry> {
        let answer = self.list();
        assert_eq!(answer.number, 0, "{answer:?}");
        let entries = self.filled(answer.count);
        let total: u64 = entries.iter().map(|entry| entry[6]).sum();
        assert_eq!(answer, Answer { count: answer.count, total, ..Answer::default() });
        entries
    }

    /// The first entries of the listing. The others are zero.
    pub fn filled(&self, count: u64) -> Vec<Entry> {
        let end = count as usize * 7;
        assert!(self.listing[end..].iter().all(|&number| number == 0));
        self.listing[..end].chunks(7).map(|entry| entry.try_into().unwrap()).collect()
    }

    /// Takes an accepted step that takes the entry with this number.
    pub fn take(&mut self, chosen: usize) {
        let entries = self.entries();
        let draw: u64 = entries[..chosen].iter().map(|entry| entry[6]).sum();
        let answer = self.step(draw);
        assert_eq!((answer.number, answer.chosen), (0, chosen as u64));
    }

    /// The rows of the processes. The rows after them are zero.
    fn rows(&self) -> std::slice::Chunks<'_, i64> {
        let (used, unused) = self.state[FIRST_PROCESS..FIRST_PAIR].split_at(PROCESS * self.state[0] as usize);
        assert!(unused.iter().all(|&number| number == 0));
        used.chunks(PROCESS)
    }

    /// Sum number and locals of each process; locals past the first `locals` are zero.
    pub fn processes(&self, locals: usize) -> Vec<Vec<i64>> {
        let mut processes = Vec::new();
        for process in self.rows() {
            assert!(process[1 + locals..DEFINITION].iter().all(|&number| number == 0), "{process:?}");
            processes.push(process[..1 + locals].to_vec());
        }
        processes
    }

    /// The definition number of each process.
    pub fn definitions(&self) -> Vec<i64> {
        self.rows().map(|process| process[DEFINITION]).collect()
    }

    pub fn pairs(&self) -> Vec<[i64; PAIR]> {
        let (used, unused) = self.state[FIRST_PAIR..].split_at(PAIR * self.state[1] as usize);
        assert!(unused.iter().all(|&number| number == 0));
        used.chunks(PAIR).map(|pair| pair.try_into().unwrap()).collect()
    }

    /// The pairs, all of them on channels of one item.
    pub fn short_pairs(&self) -> Vec<Short> {
        let short = |pair: [i64; PAIR]| {
            assert_eq!((pair[0], &pair[3..VALUE_COUNT]), (1, &[0; 4][..]));
            [pair[1], pair[2], pair[7], pair[8], pair[9]]
        };
        self.pairs().into_iter().map(short).collect()
    }

    /// Sum number and locals of a process, with its definition's number; no numbers: the row is zeroed.
    pub fn set_process(&mut self, place: usize, numbers: &[i64]) {
        let start = FIRST_PROCESS + PROCESS * place;
        self.state[start..start + PROCESS].fill(0);
        self.state[start..start + numbers.len()].copy_from_slice(numbers);
        if let Some(&sum) = numbers.first() {
            let model = second::model::read_buffer(&self.model).expect("an open model");
            self.state[start + DEFINITION] = model.sums[sum as usize].definition as i64;
        }
    }

    pub fn set_pair(&mut self, place: usize, numbers: [i64; PAIR]) {
        let start = FIRST_PAIR + PAIR * place;
        self.state[start..start + PAIR].copy_from_slice(&numbers);
    }

    pub fn set_short_pair(&mut self, place: usize, [kind, channel, count, first, second]: Short) {
        self.set_pair(place, [1, kind, channel, 0, 0, 0, 0, count, first, second]);
    }

    /// Hands in these pairs where none is lit.
    pub fn light(&mut self, pairs: &[[i64; PAIR]]) {
        self.state[1] = pairs.len() as i64;
        for (place, pair) in pairs.iter().enumerate() {
            self.set_pair(place, *pair);
        }
    }
}

/// Lengths of model, state and the third buffer of a call, one of them wrong, or all.
pub fn wrong_lengths(third: usize) -> [(usize, usize, usize); 7] {
    [
        (MODEL - 1, STATE, third),
        (MODEL + 1, STATE, third),
        (MODEL, STATE - 1, third),
        (MODEL, STATE + 1, third),
        (MODEL, STATE, third - 1),
        (MODEL, STATE, third + 1),
        (0, 0, 0),
    ]
}

/// Number and place of the answer to a text. A refused text leaves zeroed buffers.
pub fn answer_to(text: &[u8]) -> (u64, u64) {
    let mut bench = Bench::dirty();
    let answer = bench.open_bytes(text);
    assert!(bench.saves.iter().all(|&number| number == 0));
    assert!(bench.under_way.iter().all(|&number| number == 0));
    assert_eq!(bench.clock, Clock::default());
    assert_eq!((answer.branch, answer.count, answer.total, answer.chosen), (0, 0, 0, 0));
    if answer.number != 0 {
        assert!(bench.model.iter().all(|&byte| byte == 0));
        assert!(bench.state.iter().all(|&number| number == 0));
        bench.listing.fill(5);
        assert_eq!(bench.list(), Answer::refusal(11));
        assert!(bench.listing.iter().all(|&number| number == 5));
    } else {
        assert_eq!(answer.place, 0);
        assert_eq!(usize::from(bench.model[0]) + 256 * usize::from(bench.model[1]), text.len());
        assert_eq!(&bench.model[2..2 + text.len()], text);
        assert!(bench.model[2 + text.len()..].iter().all(|&byte| byte == 0));
        let number = bench.list().number;
        assert!([0, 12, 13, 14].contains(&number), "{number}");
    }
    (answer.number, answer.place)
}

/// Refused with this number at the `¶`, which is taken out of the text before.
pub fn refused(number: u64, text: &str) {
    let place = text.find('¶').expect("a mark");
    let bare = text.replace('¶', "");
    assert_eq!(answer_to(bare.as_bytes()), (number, place as u64), "{text}");
}

pub fn accepted(text: &str) {
    assert_eq!(answer_to(text.as_bytes()), (0, 0), "{text}");
}

/// Number, place and branch of a list call on an accepted text.
pub fn listed(text: &str) -> (u64, u64, u64) {
    let answer = Bench::of(text).list();
    (answer.number, answer.place, answer.branch)
}

/// A text with one process that launches the value of the expression; whatever it is.
pub fn value_of(expression: &str) -> Option<i64> {
    let mut bench = Bench::of(&format!("A[]={{c![{expression}],1}};A[];"));
    let answer = bench.step(0);
    match answer.number {
        0 => Some(bench.short_pairs()[0][3]),
        12 => {
            assert_eq!((answer.place, answer.branch), (0, 0));
            None
        }
        other => panic!("{other}"),
    }
}

/// The rate as a weight divided by 10,000, if it has a value in its range.
pub fn rate_of(variables: &str, rate: &str) -> Option<u64> {
    let mut bench = Bench::of(&format!("{variables}A[]={{go,{rate}}};A[];"));
    let answer = bench.list();
    match answer.number {
        0 => Some(answer.total / 10_000),
        12 => None,
        other => panic!("{other}"),
    }
}

/// The values from -20 to 20 that a set holds.
pub fn members(set: &str) -> Vec<i64> {
    let mut bench = Bench::of(&format!("A[n]={{@c![n],1}};B[]={{@c?[{set}],1}};41*A[0]||B[];"));
    for place in 0..41 {
        bench.set_process(place, &[0, place as i64 - 20]);
    }
    bench.entries().iter().map(|entry| entry[1] as i64 - 20).collect()
}
