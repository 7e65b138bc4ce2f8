//! The library at corners that no script of `calls` reaches: a clock at the ends of its range, also in a run, saves
//! that are damaged, saves of a wrong length, and the same of searches.
#![cfg(feature = "engine")]

use compare::linked;
use compare::with_stack;
use second::clock::Clock;
use second::engine::Opening;
use second::ran::EVENT;
use second::{Answer, Progress, Running, LISTING, MODEL, SAVES, SEARCH, STATE};

const MOST: u64 = (1 << 63) - 1;

/// A rate of 1: the draws 40000, 50000 take 6,103 ticks and two draws.
const PLAIN: &[u8] = b"A[]={a,1}.A[];A[];";

struct Bench {
    model: Vec<u8>,
    state: Vec<i64>,
    saves: Vec<i64>,
    clock: Clock,
}

fn opened() -> Bench {
    let mut bench = Bench {
        model: vec![0; MODEL],
        state: vec![0; STATE],
        saves: vec![7; SAVES],
        clock: Clock { ticks: 5, draws: 6 },
    };
    let Bench { model, state, saves, clock } = &mut bench;
    let search = &mut vec![7; SEARCH];
    assert_eq!(linked::open(PLAIN, Opening { model, state, saves, search, clock }).number, 0);
    assert!(search.iter().all(|&number| number == 0));
    assert_eq!(bench.clock, Clock { ticks: 0, draws: 0 });
    assert!(bench.saves.iter().all(|&number| number == 0));
    bench
}

/// The number that a timed step gives from this clock, and the clock after it.
fn timed(clock: Clock, waiting: &[u16]) -> (u64, Clock) {
    let mut bench = opened();
    bench.clock = clock;
    let before = bench.state.clone();
    let mut listing = vec![0; LISTING];
    let answer = linked::timed_step(&bench.model, &mut bench.state, &mut listing, waiting, 0, &mut bench.clock);
    if answer.number != 0 {
        assert_eq!((&bench.state, answer.chosen), (&before, 0));
    }
    (answer.number, bench.clock)
}

#[test]
fn a_clock_at_the_ends_of_its_range() {
    with_stack(|| {
        let waiting = [40_000, 50_000];
        for (ticks, draws) in [(MOST - 6_103, 0), (0, MOST - 2), (MOST - 6_103, MOST - 2)] {
            assert_eq!(timed(Clock { ticks, draws }, &waiting), (0, Clock { ticks: ticks + 6_103, draws: draws + 2 }));
        }
        for (ticks, draws) in [(MOST - 6_102, 0), (MOST, 0), (0, MOST - 1), (0, MOST), (MOST, MOST)] {
            let clock = Clock { ticks, draws };
            assert_eq!(timed(clock, &waiting), (25, clock));
            assert_eq!(timed(clock, &[7]), (23, clock));
            assert_eq!(timed(clock, &[2, 1, 1].repeat(32)), (24, clock));
        }
        // E is 0 at the top of the range: no tick, two draws.
        assert_eq!(timed(Clock { ticks: MOST, draws: 0 }, &[0, 0]), (0, Clock { ticks: MOST, draws: 2 }));
        for clock in [Clock { ticks: MOST + 1, draws: 0 }, Clock { ticks: 0, draws: MOST + 1 }] {
            assert_eq!(timed(clock, &waiting), (11, clock));
        }
    });
}

/// A run by a rate of 1 with a tick and two draws for each step, from this clock: its number, its steps, and the clock
/// after it.
fn ran(clock: Clock) -> (u64, u64, Clock) {
    let mut bench = opened();
    bench.clock = clock;
    let mut lent = vec![77; 48];
    let Bench { model, state, clock, .. } = &mut bench;
    let (words, waiting, events) = (&[0; 9], &[7; 18], &mut lent);
    let ran = linked::run(model, Running { state, words, waiting, events, limit: 9, clock });
    let (filled, left) = lent.split_at(EVENT * ran.steps as usize);
    assert!(left.iter().all(|&number| number == 77));
    assert_eq!(filled.chunks(EVENT).last().map_or(bench.clock.ticks, |event| event[0]), bench.clock.ticks);
    assert_eq!((ran.words, ran.waiting), (ran.steps, 2 * ran.steps));
    (ran.number, ran.steps, bench.clock)
}

#[test]
fn a_run_at_the_ends_of_the_clock() {
    with_stack(|| {
        for left in 0..9 {
            for clock in [Clock { ticks: MOST - left, draws: 5 }, Clock { ticks: 5, draws: MOST - 2 * left }] {
                // There is room for six events.
                let steps = left.min(6);
                let number = if left < 6 { 25 } else { 0 };
                let after = Clock { ticks: clock.ticks + steps, draws: clock.draws + 2 * steps };
                assert_eq!(ran(clock), (number, steps, after));
            }
        }
        assert_eq!(ran(Clock { ticks: 0, draws: MOST - 3 }), (25, 1, Clock { ticks: 1, draws: MOST - 1 }));
        for clock in [Clock { ticks: MOST + 1, draws: 0 }, Clock { ticks: 0, draws: MOST + 1 }] {
            assert_eq!(ran(clock), (11, 0, clock));
        }
    });
}

/// The numbers that a save, a return and a forget of one name give over these saves; none changes anything.
fn numbers(bench: &Bench, saves: &[i64]) -> [u64; 3] {
    let mut lent = saves.to_vec();
    let saved = linked::save(&bench.model, &bench.state, &mut lent, b"stage", bench.clock).number;
    let (mut state, mut clock) = (bench.state.clone(), bench.clock);
    let returned = linked::return_to(&bench.model, &mut state, &lent, b"stage", &mut clock).number;
    let forgot = linked::forget(&bench.model, &bench.state, &mut lent, b"stage").number;
    assert!(lent == saves && state == bench.state && clock == bench.clock);
    [saved, returned, forgot]
}

#[test]
fn saves_that_are_damaged_or_of_a_wrong_length() {
    with_stack(|| {
        let mut bench = opened();
        assert_eq!(linked::save(&bench.model, &bench.state, &mut bench.saves, b"stage", bench.clock).number, 0);
        let place = SAVES / 8;
        let damages: [(usize, i64); 6] = [(0, -1), (0, 95), (1, 97), (2, 257), (place - 1, -1), (place + 2, 1)];
        for (at, number) in damages {
            let mut saves = bench.saves.clone();
            saves[at] = number;
            assert_eq!(numbers(&bench, &saves), [11; 3], "number {at} is {number}");
        }
        // One name in two places.
        let mut twice = bench.saves.clone();
        twice.copy_within(0..place, place);
        assert_eq!(numbers(&bench, &twice), [11; 3]);
        for length in [0, SAVES - 1, SAVES + 1] {
            assert_eq!(numbers(&bench, &vec![0; length]), [1; 3]);
        }
    });
}

/// The answers of a carrying on by this number and of a beginning to no depth over this search; none changes anything.
fn searched(bench: &Bench, search: &[i64], number: u64) -> (Progress, u64) {
    let mut lent = search.to_vec();
    let begun = linked::begin(&bench.model, &bench.state, &mut lent, b"a", 0);
    assert!(lent == search && begun == Answer::refusal(begun.number));
    let carried = linked::carry_on(&bench.model, &bench.state, &mut lent, number);
    assert!(lent == search);
    (carried, begun.number)
}

#[test]
fn searches_that_are_damaged_or_of_a_wrong_length() {
    const COUNTED: u64 = 9_000_000_000_000_000_000;
    with_stack(|| {
        let bench = opened();
        // Depth, wait, count, flag, length, eight entries, the state.
        let mut held = vec![0; SEARCH];
        assert_eq!(linked::begin(&bench.model, &bench.state, &mut held, b"b", 8).number, 0);
        assert_eq!(linked::carry_on(&bench.model, &bench.state, &mut held, 3), Progress::going(3));
        assert_eq!(held[..13], [8, 0, 3, 0, 2, 0, 0, 0, 0, 0, 0, 0, 0]);
        assert!(held[13..] == bench.state[..]);
        assert_eq!(searched(&bench, &held, 0), (Progress::going(3), 26));
        let most = COUNTED as i64;
        let passes: [(usize, i64); 7] = [(0, 2), (1, 1), (2, 1), (2, most), (3, 1), (4, 1), (4, 8)];
        for (at, number) in passes {
            let mut search = held.clone();
            search[at] = number;
            let count = if at == 2 { number as u64 } else { 3 };
            assert_eq!(searched(&bench, &search, 0), (Progress::going(count), 26), "number {at} is {number}");
            assert_eq!(searched(&bench, &search, COUNTED - count + 1), (Progress::refusal(28), 26));
            assert_eq!(searched(&bench, &search, u64::MAX), (Progress::refusal(28), 26));
        }
        let damages: [(usize, i64); 23] = [
            (0, 0),
            (0, 1),
            (0, 9),
            (0, -1),
            (1, 2),
            (1, -1),
            (2, 0),
            (2, -1),
            (2, most + 1),
            (2, i64::MIN),
            (3, 2),
            (3, -1),
            (4, 9),
            (4, -1),
            (5, 1),
            (6, -1),
            (7, 1),
            (12, 1),
            (13, 257),
            (14, 1),
            (15, 1),
            (16, -5),
            (SEARCH - 1, 1),
        ];
        for (at, number) in damages {
            let mut search = held.clone();
            search[at] = number;
            for number in [0, 1, u64::MAX] {
                assert_eq!(searched(&bench, &search, number), (Progress::refusal(11), 11), "number {at} is {number}");
            }
        }
        assert_eq!(searched(&bench, &[0; SEARCH], 0), (Progress::refusal(28), 26));
        for length in [0, 13, SEARCH - 1, SEARCH + 1] {
            let mut search = held.clone();
            search.resize(length, 0);
            assert_eq!(searched(&bench, &search, u64::MAX), (Progress::refusal(1), 1), "{length}");
        }
        // One state before the limit, up to it, and one more.
        let mut search = held.clone();
        search[2] = most - 2;
        assert_eq!(searched(&bench, &search, 3), (Progress::refusal(28), 26));
        assert_eq!(linked::carry_on(&bench.model, &bench.state, &mut search, 2), Progress::going(COUNTED));
        assert_eq!(search[..13], [8, 0, most, 0, 4, 0, 0, 0, 0, 0, 0, 0, 0]);
        assert_eq!(searched(&bench, &search, 1), (Progress::refusal(28), 26));
        assert_eq!(searched(&bench, &search, 0), (Progress::going(COUNTED), 26));
    });
}
