//! Many timed steps in one call: the ways to end, words that are turned away, what is used, the events.

mod common;

use common::*;
use second::clock::MOST;
use second::generate::{lively, Random};
use second::ran::{bound, draw, EVENT};
use second::state::DEFINITION;
use second::{Clock, Ran, MODEL, STATE};

/// One entry, total 10^8.
const PLAIN: &str = "A[n]={go,1}.A[n+1];A[0];";
const UNIT: u64 = 100_000_000;
/// What events hold before a run.
const LENT: u64 = 77;
/// The waiting draws of a step of one tick at a rate of 1.
const TICK: [u16; 2] = [7, 7];

/// A run with room for so many events: its numbers, its events, and the rest, which is as it was lent.
fn run(bench: &mut Bench, words: &[u64], waiting: &[u16], room: usize, limit: u64) -> (Ran, Vec<[u64; EVENT]>) {
    let before = bench.clone();
    let mut events = vec![LENT; EVENT * room];
    let ran = bench.run(words, waiting, &mut events, limit);
    assert!(bench.model == before.model);
    let (filled, left) = events.split_at(EVENT * ran.steps as usize);
    assert!(left.iter().all(|&number| number == LENT));
    let filled: Vec<[u64; EVENT]> = filled.chunks(EVENT).map(|event| event.try_into().unwrap()).collect();
    if ran.steps == 0 {
        assert_eq!((ran.words, ran.waiting), (0, 0));
        assert!(*bench == before);
    } else {
        assert_eq!(filled.last().unwrap()[0], bench.clock.ticks);
    }
    assert_eq!(bench.clock.draws - before.clock.draws, ran.waiting);
    assert!(ran.steps <= limit && ran.steps <= ran.words && ran.words <= words.len() as u64);
    assert!(2 * ran.steps <= ran.waiting && ran.waiting <= waiting.len() as u64);
    (ran, filled)
}

/// The numbers of a run that ended after so many steps with a word and a tick each.
fn plain(number: u64, steps: u64, count: u64, total: u64) -> Ran {
    Ran { number, steps, words: steps, waiting: 2 * steps, count, total }
}

/// Words and waiting draws for more steps than there are. Each word takes the first entry.
const WORDS: [u64; 40] = [0; 40];
fn ticks() -> Vec<u16> {
    TICK.repeat(40)
}

/// Ends with these numbers, as it does from the start and after each number of steps by itself.
fn ends(text: &str, ran: Ran) -> Bench {
    let mut bench = Bench::of(text);
    assert_eq!(run(&mut bench, &WORDS, &ticks(), 40, u64::MAX).0, ran, "{text}");
    for steps in 0..=ran.steps {
        let mut parts = Bench::of(text);
        let (first, _) = run(&mut parts, &WORDS, &ticks(), 40, steps);
        assert_eq!((first.number, first.steps), (0, steps), "{text}");
        let rest = plain(ran.number, ran.steps - steps, ran.count, ran.total);
        assert_eq!(run(&mut parts, &WORDS, &ticks(), 40, u64::MAX).0, rest, "{text}");
        assert!(parts.state == bench.state && parts.clock == bench.clock);
    }
    bench
}

#[test]
fn a_limit_ends_it() {
    for limit in [1, 2, 17, 40] {
        let mut bench = Bench::of(PLAIN);
        let (ran, events) = run(&mut bench, &WORDS, &ticks(), 40, limit);
        assert_eq!(ran, plain(0, limit, 1, UNIT));
        let expected: Vec<[u64; EVENT]> = (1..=limit).map(|step| [step, 1, 0, 0, 0, 0, 0, UNIT]).collect();
        assert_eq!(events, expected);
        assert_eq!(bench.processes(1), [[0, limit as i64]]);
        assert_eq!(bench.clock, Clock { ticks: limit, draws: 2 * limit });
    }
}

#[test]
fn a_limit_of_zero_asks_one_and_eleven_alone() {
    for text in [PLAIN, "A[]={go,0};A[];", "A[]={go,1*(1/0)};A[];", "A[n]={go,1}.A[1/n];A[0];"] {
        for (words, waiting, room) in [(&WORDS[..], &ticks()[..], 40), (&[], &[], 0), (&WORDS, &[7], 1)] {
            assert_eq!(run(&mut Bench::of(text), words, waiting, room, 0).0, Ran::default());
        }
    }
    let mut bench = Bench { clock: Clock { ticks: MOST + 1, draws: 0 }, ..Bench::of(PLAIN) };
    assert_eq!(run(&mut bench, &[], &[], 0, 0).0, Ran::refusal(11));
    bench.state.pop();
    assert_eq!(run(&mut bench, &[], &[], 0, 0).0, Ran::refusal(1));
}

#[test]
fn the_room_ends_it() {
    for length in 0..=EVENT * 3 {
        let room = length / EVENT;
        let mut bench = Bench::of(PLAIN);
        let mut events = vec![LENT; length];
        let ran = bench.run(&WORDS, &ticks(), &mut events, u64::MAX);
        assert_eq!(ran, if room == 0 { Ran::default() } else { plain(0, room as u64, 1, UNIT) });
        // Numbers past the last whole eight stay.
        assert!(events[EVENT * room..].iter().all(|&number| number == LENT));
        assert_eq!(bench.processes(1), [[0, room as i64]]);
    }
    // It comes before what a step asks.
    for text in ["A[]={go,0};A[];", "A[]={go,1*(1/0)};A[];", "A[n]={go,1}.A[1/n];A[0];"] {
        assert_eq!(run(&mut Bench::of(text), &WORDS, &ticks(), 0, 5).0, Ran::default());
    }
    // After as many steps as there is room for, the next state isn't listed.
    let text = "A[n]={go,1*(1/(1-n))}.A[n+1];A[0];";
    assert_eq!(run(&mut Bench::of(text), &WORDS, &ticks(), 1, 5).0, plain(0, 1, 1, UNIT));
    assert_eq!(run(&mut Bench::of(text), &WORDS, &ticks(), 5, 1).0, plain(0, 1, 1, UNIT));
    assert_eq!(run(&mut Bench::of(text), &WORDS, &ticks(), 2, 2).0, plain(12, 1, 0, 0));
}

#[test]
fn the_words_end_it() {
    let mut bench = Bench::of(PLAIN);
    assert_eq!(run(&mut bench, &[], &ticks(), 40, 5).0, plain(0, 0, 1, UNIT));
    // After some steps; the state that was listed last isn't the one it chose from last.
    let mut bench = Bench::of("A[n]={go,1*n}.A[n+1];A[1];");
    assert_eq!(run(&mut bench, &WORDS[..3], &ticks(), 40, 5).0, plain(0, 3, 1, 4 * UNIT));
    assert_eq!(run(&mut bench, &WORDS[..3], &ticks(), 40, 3).0, plain(0, 3, 1, 6 * UNIT));
    // After words that are turned away, which aren't used.
    let most = u64::MAX;
    let mut bench = Bench::of(PLAIN);
    assert_eq!(run(&mut bench, &[most], &ticks(), 40, 5).0, plain(0, 0, 1, UNIT));
    assert_eq!(run(&mut bench, &[most; 9], &[], 40, 5).0, plain(0, 0, 1, UNIT));
    assert_eq!(run(&mut bench, &[0, most, most], &ticks(), 40, 5).0, plain(0, 1, 1, UNIT));
    // Those before an accepted step are.
    let ran = Ran { words: 4, ..plain(0, 2, 1, UNIT) };
    assert_eq!(run(&mut bench, &[most, most, 0, 0, most], &ticks(), 40, 5).0, ran);
    // 17 to 19 and 23 to 25 come after them.
    for (text, waiting) in [("A[n]={go,1}.A[1/n];A[0];", &TICK[..]), (PLAIN, &[]), (PLAIN, &[2, 1, 1].repeat(32))] {
        assert_eq!(run(&mut Bench::of(text), &[most], waiting, 40, 5).0, plain(0, 0, 1, UNIT));
    }
}

#[test]
fn twelve_to_fourteen_end_it() {
    ends("A[n]={go,1*(1/n)}.A[n-1];A[0];", plain(12, 0, 0, 0));
    ends("A[n]={go,1*(6/n)}.A[n-1];A[3];", plain(12, 3, 0, 0));
    let full = |processes: usize, beside: &str| {
        format!(
            "A[n]={{go,1}}.(A[n]||S[]);S[]={{@d![1],{beside}}};R[]={{@d?[1],{beside}}};A[0]||{processes}*S[]||32*R[];"
        )
    };
    ends(&full(33, "0"), plain(13, 0, 0, 0));
    ends(&full(28, "0"), plain(13, 4, 0, 0));
    // A total of 9 times 10^18 and no more.
    let full = |processes: usize| {
        format!("A[n]={{go,1}}.(A[n]||S[]);S[]={{@d![1],100000}};R[]={{@d?[1],100000}};A[0]||{processes}*S[]||R[];")
    };
    ends(&full(9), plain(14, 0, 0, 0));
    ends(&full(6), plain(14, 3, 0, 0));
}

#[test]
fn fifteen_ends_it_before_a_word_is_looked_at() {
    ends("A[]={go,0};A[];", plain(15, 0, 1, 0));
    ends("A[n]=[n>0]->{go,1}.A[n-1];A[4];", plain(15, 4, 0, 0));
    ends("A[n]={go,1*n}.A[n-1];A[4];", plain(15, 4, 1, 0));
    for words in [&[][..], &[u64::MAX]] {
        assert_eq!(run(&mut Bench::of("A[]={go,0};A[];"), words, &[], 1, 1).0, plain(15, 0, 1, 0));
    }
}

#[test]
fn seventeen_to_nineteen_end_it() {
    ends("A[n]={go,1}.A[1/n];A[0];", plain(17, 0, 1, UNIT));
    ends("A[n]={go,1}.A[n-1+0/n];A[4];", plain(17, 4, 1, UNIT));
    ends("A[]={go,1}.(A[]||I[]);I[]={a,0};A[]||255*I[];", plain(18, 0, 256, UNIT));
    let bench = ends("A[]={go,1}.(A[]||I[]);I[]={a,0};A[]||250*I[];", plain(18, 5, 256, UNIT));
    assert_eq!(bench.state[0], 256);
    // 256 steps: too many for the words above.
    let mut bench = Bench::of("A[n]={c![n],1}.A[n+1];A[0];");
    assert_eq!(run(&mut bench, &[0; 300], &TICK.repeat(300), 300, 400).0, plain(19, 256, 1, UNIT));
    assert_eq!(bench.pairs().len(), 256);
    assert_eq!(run(&mut bench, &[0; 300], &TICK.repeat(300), 300, 400).0, plain(19, 0, 1, UNIT));
    // They come before the waiting draws.
    let mut bench = Bench::of("A[n]={go,1}.A[1/n];A[0];");
    assert_eq!(run(&mut bench, &[0], &[], 1, 1).0, plain(17, 0, 1, UNIT));
    // A word that is turned away and one that isn't, neither of them used.
    assert_eq!(run(&mut bench, &[u64::MAX, 0], &TICK, 1, 1).0, plain(17, 0, 1, UNIT));
}

#[test]
fn too_few_waiting_draws_are_twenty_three() {
    for (waiting, steps) in [(&[][..], 0), (&[7], 0), (&[7, 7], 1), (&[7, 7, 7], 1), (&[7, 7, 7, 6, 6, 5], 1)] {
        let mut bench = Bench::of(PLAIN);
        assert_eq!(run(&mut bench, &WORDS, waiting, 40, 40).0, plain(23, steps, 1, UNIT), "{waiting:?}");
    }
    // Draws left over by one step are the next one's: 5 3 4 7 9 are one wait of 65,543.
    let mut bench = Bench::of(PLAIN);
    let (ran, events) = run(&mut bench, &WORDS, &[5, 3, 4, 7, 9, 13, 13, 1], 40, 40);
    assert_eq!(ran, Ran { waiting: 7, ..plain(23, 2, 1, UNIT) });
    assert_eq!([events[0][0], events[1][0]], [10_001, 10_002]);
}

#[test]
fn thirty_two_even_runs_are_twenty_four() {
    let even = [2, 1, 1].repeat(32);
    for steps in [0, 1, 5] {
        let waiting = [TICK.repeat(steps), even.clone(), ticks()].concat();
        let ran = plain(24, steps as u64, 1, UNIT);
        assert_eq!(run(&mut Bench::of(PLAIN), &WORDS, &waiting, 40, 40).0, ran);
    }
    let waiting = [&even[3..], &TICK].concat();
    let ran = Ran { waiting: 95, ..plain(23, 1, 1, UNIT) };
    assert_eq!(run(&mut Bench::of(PLAIN), &WORDS, &waiting, 40, 40).0, ran);
}

#[test]
fn a_clock_near_its_ends_is_twenty_five() {
    for left in 0..5 {
        for clock in [Clock { ticks: MOST - left, draws: 3 }, Clock { ticks: 3, draws: MOST - 2 * left }] {
            for odd in 0..2 {
                let clock = Clock { draws: (clock.draws + odd).min(MOST), ..clock };
                let steps = left.min((MOST - clock.draws) / 2);
                let mut bench = Bench { clock, ..Bench::of(PLAIN) };
                assert_eq!(run(&mut bench, &WORDS, &ticks(), 40, 40).0, plain(25, steps, 1, UNIT));
                assert_eq!(bench.clock, Clock { ticks: clock.ticks + steps, draws: clock.draws + 2 * steps });
                // 23 comes before it.
                assert_eq!(run(&mut bench, &WORDS, &[7], 40, 40).0, plain(23, 0, 1, UNIT));
            }
        }
    }
    // No tick at the top of the range: the draws alone go on.
    let mut bench = Bench { clock: Clock { ticks: MOST, draws: 0 }, ..Bench::of(PLAIN) };
    assert_eq!(run(&mut bench, &WORDS, &[0, 0, 6, 6, 7, 7], 40, 40).0, plain(25, 2, 1, UNIT));
}

#[test]
fn one_and_eleven_leave_all_as_lent() {
    let refused = |bench: &Bench, model: usize, state: usize, number: u64| {
        for (words, waiting, length, limit) in [(40, 80, 320, 40), (0, 0, 0, 0), (1, 2, 9, u64::MAX)] {
            let mut after = bench.clone();
            after.model.resize(model, 0);
            after.state.resize(state, 0);
            let before = after.clone();
            let mut events = vec![LENT; length];
            let ran = after.run(&WORDS[..words], &ticks()[..waiting], &mut events, limit);
            assert_eq!(ran, Ran::refusal(number));
            assert!(after == before && events.iter().all(|&number| number == LENT));
        }
    };
    let bench = Bench::of(PLAIN);
    let late = Bench { clock: Clock { ticks: 0, draws: MOST + 1 }, ..Bench::of(PLAIN) };
    for bench in [&bench, &late, &Bench::new(), &Bench::dirty()] {
        for (model, state) in [(MODEL - 1, STATE), (MODEL + 1, STATE), (MODEL, STATE - 1), (MODEL, STATE + 1), (0, 0)] {
            refused(bench, model, state, 1);
        }
    }
    let mut spoilt = bench.clone();
    spoilt.state[2 + DEFINITION] = 1;
    let early = Bench { clock: Clock { ticks: u64::MAX, draws: 0 }, ..bench.clone() };
    for bench in [&late, &early, &spoilt, &Bench::new(), &Bench::dirty()] {
        refused(bench, MODEL, STATE, 11);
    }
}

#[test]
fn words_at_the_bound_of_a_total() {
    // 2^64 is 18,446,744,073,709,551,616.
    let bounds: [(u64, u128); 8] = [
        (1, 1 << 64),
        (2, 1 << 64),
        (3, (1 << 64) - 1),
        (1 << 62, 1 << 64),
        (UNIT, 18_446_744_073_700_000_000),
        (6_148_914_691_236_517_205, (1 << 64) - 1),
        (6_148_914_691_236_517_206, 12_297_829_382_473_034_412),
        (9_000_000_000_000_000_000, 18_000_000_000_000_000_000),
    ];
    for (total, expected) in bounds {
        assert_eq!(bound(total), expected, "{total}");
        assert_eq!(draw((expected - 1) as u64, total), Some(total - 1));
        assert_eq!((draw(0, total), draw(total - 1, total), draw(total, total)), (Some(0), Some(total - 1), Some(0)));
        if let Ok(first) = u64::try_from(expected) {
            assert_eq!((draw(first, total), draw(u64::MAX, total)), (None, None));
        }
    }
}

#[test]
fn words_that_are_turned_away() {
    let step = |text: &str, words: &[u64]| {
        let mut bench = Bench::of(text);
        let (ran, events) = run(&mut bench, words, &ticks(), 40, 1);
        (ran.words, events.first().map(|event| event[3]))
    };
    // Two branches of weight 10^8: draws below it take the first.
    let two = "A[]={a,1}.A[]+{b,1}.A[];A[];";
    let first = bound(2 * UNIT) as u64;
    assert_eq!(step(two, &[first - 1, 0]), (1, Some(1)));
    assert_eq!(step(two, &[first, 0]), (2, Some(0)));
    assert_eq!(step(two, &[first, u64::MAX, first + 1, first - 1]), (4, Some(1)));
    assert_eq!(step(two, &[first, u64::MAX]), (0, None));
    assert_eq!((step(two, &[UNIT - 1]), step(two, &[UNIT])), ((1, Some(0)), (1, Some(1))));
    // 256 times 256 hundred-millionths divide 2^64: no word is turned away.
    let even = "S[]={@c![1],0.0256}.S[];R[]={@c?[1],0.0256}.R[];S[]||R[];";
    assert_eq!(step(even, &[u64::MAX]), (1, Some(0)));
    // A total of 6.2 times 10^18: a third is.
    let most = "S[n]={@c![n],20000*n}.S[n];R[]={@c?[0..9],100000}.R[];S[1]||6*S[5]||R[];";
    let total = 6_200_000_000_000_000_000;
    assert_eq!(bound(total), 2 * u128::from(total));
    assert_eq!(step(most, &[2 * total, 2 * total - 1]), (2, Some(0)));
    assert_eq!(run(&mut Bench::of(most), &[2 * total, total + total / 2], &TICK, 1, 1).1[0][2], 3);
    assert_eq!(run(&mut Bench::of(most), &[199_999_999_999_999_999], &TICK, 1, 1).1[0][2], 0);
    assert_eq!(run(&mut Bench::of(most), &[200_000_000_000_000_000], &TICK, 1, 1).1[0][2], 1);
}

/// The same steps one by one: each state listed, each word tried, each step timed by the waiting draws left.
fn step_by_step(bench: &mut Bench, words: &[u64], waiting: &[u16], limit: u64) -> (Ran, Vec<[u64; EVENT]>) {
    let (mut ran, mut events) = (Ran::default(), Vec::new());
    let (mut words, mut waiting) = (words.iter(), waiting);
    let mut looked = 0;
    while ran.steps < limit {
        let listed = bench.list();
        (ran.number, ran.count, ran.total) = (listed.number, listed.count, listed.total);
        if listed.number != 0 {
            break;
        }
        if listed.total == 0 {
            ran.number = 15;
            break;
        }
        // 2^64 modulo the total words are too many.
        let over = (u64::MAX % listed.total + 1) % listed.total;
        let Some(word) = words.by_ref().inspect(|_| looked += 1).find(|&&word| word <= u64::MAX - over) else { break };
        let draws = bench.clock.draws;
        let stepped = bench.timed_step(word % listed.total, waiting);
        ran.number = stepped.number;
        if stepped.number != 0 {
            break;
        }
        let used = bench.clock.draws - draws;
        waiting = &waiting[used as usize..];
        (ran.steps, ran.words, ran.waiting) = (ran.steps + 1, looked, ran.waiting + used);
        let entry = bench.filled(stepped.count)[stepped.chosen as usize];
        events.push([&[bench.clock.ticks], &entry[..]].concat().try_into().unwrap());
    }
    (ran, events)
}

#[test]
fn it_is_a_list_of_timed_steps() {
    let (mut steps, mut turned, mut numbers) = (0, 0, std::collections::BTreeSet::new());
    second::model::keep_last();
    for seed in 0..200 {
        let mut random = Random::new(seed);
        let mut bench = Bench::new();
        assert_eq!(bench.open_bytes(&lively(&mut random)).number, 0);
        for _ in 0..3 {
            let near = |random: &mut Random| u64::MAX - random.number() % 300_000_000;
            let some = |random: &mut Random| if random.chance(20) { near(random) } else { random.number() };
            let words: Vec<u64> = (0..random.below(60)).map(|_| some(&mut random)).collect();
            let waiting: Vec<u16> = (0..random.below(400)).map(|_| random.number() as u16).collect();
            let limit = *random.pick(&[1, 5, 20, 30, 1 << 40]);
            let mut single = bench.clone();
            let (ran, events) = run(&mut bench, &words, &waiting, 30, limit);
            assert_eq!((ran, events), step_by_step(&mut single, &words, &waiting, limit.min(30)), "seed {seed}");
            assert!(bench.state == single.state && bench.clock == single.clock, "seed {seed}");
            (steps, turned) = (steps + ran.steps, turned + ran.words - ran.steps);
            numbers.insert(ran.number);
        }
    }
    println!("{steps} steps, {turned} words turned away, numbers {numbers:?}");
    assert!(steps > 2_000 && turned > 100 && numbers.is_superset(&[0, 15, 23].into()));
}

#[test]
fn two_runs_are_one() {
    second::model::keep_last();
    for seed in 0..60 {
        let mut random = Random::new(seed);
        let mut whole = Bench::new();
        assert_eq!(whole.open_bytes(&lively(&mut random)).number, 0);
        let mut parts = whole.clone();
        let words: Vec<u64> = (0..60).map(|_| random.number()).collect();
        let waiting: Vec<u16> = (0..400).map(|_| random.number() as u16).collect();
        let (ran, events) = run(&mut whole, &words, &waiting, 60, 50);
        let (first, mut joined) = run(&mut parts, &words, &waiting, 60, random.below(50) as u64);
        let (words, waiting) = (&words[first.words as usize..], &waiting[first.waiting as usize..]);
        let (rest, more) = run(&mut parts, words, waiting, 60, 50 - first.steps);
        joined.extend(more);
        assert_eq!(joined, events, "seed {seed}");
        assert!(whole.state == parts.state && whole.clock == parts.clock, "seed {seed}");
        let [steps, words, waiting] =
            [first.steps + rest.steps, first.words + rest.words, first.waiting + rest.waiting];
        assert_eq!(Ran { steps, words, waiting, ..rest }, ran, "seed {seed}");
    }
}
