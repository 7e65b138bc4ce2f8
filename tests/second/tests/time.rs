//! Model time (02, note 4): waiting draws, the clock, timed steps.

mod common;

use common::*;
use second::clock::{wait, Wait, MOST};
use second::{Answer, Clock, LISTING};

fn gives(draws: &[u16], length: u64, used: u64) {
    assert_eq!(wait(draws), Ok(Wait { length, used }), "{draws:?}");
}

#[test]
fn runs_of_draws() {
    // The note's own draws.
    gives(&[40_000, 50_000], 40_000, 2);
    // What is left over isn't used.
    gives(&[40_000, 50_000, 1, 2, 3], 40_000, 2);
    // The draw that ends a run begins none.
    gives(&[5, 3, 4, 7, 9], 65_536 + 7, 5);
    // Equal draws end a run.
    gives(&[5, 5], 5, 2);
    gives(&[5, 3, 3, 2, 2], 65_536 + 2, 5);
    // A run of three.
    gives(&[9, 8, 7, 7], 9, 4);
    gives(&[9, 8, 7, 6, 6, 0, 0], 65_536, 7);
    gives(&[0, 0], 0, 2);
    gives(&[65_535, 65_535], 65_535, 2);
    // The longest run is of every draw there is, an even number.
    let falling: Vec<u16> = (0..=65_535).rev().collect();
    assert_eq!(wait(&falling), Err(23));
    gives(&[&falling[..], &[0, 1, 1]].concat(), 65_536 + 1, 65_539);
    gives(&[&falling[1..], &[0]].concat(), 65_534, 65_536);
}

#[test]
fn draws_that_end() {
    for draws in [&[][..], &[7], &[7, 6], &[7, 6, 5], &[7, 6, 6], &[7, 6, 6, 5], &[7, 6, 6, 5, 4]] {
        assert_eq!(wait(draws), Err(23), "{draws:?}");
    }
}

#[test]
fn thirty_two_even_runs() {
    let even = [2, 1, 1].repeat(31);
    gives(&[&even[..], &[3, 3]].concat(), 31 * 65_536 + 3, 95);
    gives(&[&even[..], &[65_535, 65_535]].concat(), 32 * 65_536 - 1, 95);
    assert_eq!(wait(&even), Err(23));
    assert_eq!(wait(&[&even[..], &[2, 1]].concat()), Err(23));
    // As soon as the 32nd has ended, whatever follows.
    assert_eq!(wait(&[&even[..], &[2, 1, 1]].concat()), Err(24));
    assert_eq!(wait(&[&even[..], &[2, 1, 1, 5, 5]].concat()), Err(24));
}

const PLAIN: &str = "A[n]={go,1}.A[n+1];A[0];";

/// The clock after one step at rate 1 with these waiting draws.
fn timed(waiting: &[u16]) -> Clock {
    let mut bench = Bench::of(PLAIN);
    let answer = bench.timed_step(0, waiting);
    assert_eq!(answer, Answer { count: 1, total: 100_000_000, ..Answer::default() });
    bench.clock
}

#[test]
fn times_are_rounded_down() {
    // E · 10^12 / (65,536 · 10^8): E times 0.1525..
    assert_eq!(timed(&[0, 0]), Clock { ticks: 0, draws: 2 });
    assert_eq!(timed(&[6, 6]), Clock { ticks: 0, draws: 2 });
    assert_eq!(timed(&[7, 7]), Clock { ticks: 1, draws: 2 });
    assert_eq!(timed(&[40_000, 50_000]), Clock { ticks: 6_103, draws: 2 });
    assert_eq!(timed(&[65_535, 65_535]), Clock { ticks: 9_999, draws: 2 });
    // One model unit is 10,000 ticks.
    assert_eq!(timed(&[2, 1, 1, 0, 0]), Clock { ticks: 10_000, draws: 5 });
}

#[test]
fn each_time_is_rounded_by_itself_and_added() {
    let mut bench = Bench::of(PLAIN);
    for steps in 1..=5 {
        // 13 times 0.1525.. is 1.98..
        assert_eq!(bench.timed_step(0, &[13, 13, 1]).number, 0);
        assert_eq!(bench.clock, Clock { ticks: steps, draws: 2 * steps });
    }
    assert_eq!(bench.processes(1), [[0, 5]]);
    // A plain step leaves the clock.
    bench.take(0);
    assert_eq!(bench.clock, Clock { ticks: 5, draws: 10 });
}

#[test]
fn the_least_and_the_largest_total() {
    let ticks = |rate: &str, waiting: &[u16]| {
        let mut bench = Bench::of(&format!("A[]={{go,{rate}}}.A[];A[];"));
        assert_eq!(bench.timed_step(0, waiting).number, 0);
        bench.clock.ticks
    };
    // Rate 0.0001 is a total of 10,000; E · 10^8 / 65,536.
    assert_eq!(ticks("0.0001", &[1, 1]), 1_525);
    assert_eq!(ticks("0.0001", &[&[2, 1, 1].repeat(31)[..], &[65_535, 65_535]].concat()), 3_199_998_474);
    assert_eq!(ticks("100000", &[65_535, 65_535]), 0);
    assert_eq!(ticks("100000", &[&[2, 1, 1].repeat(31)[..], &[65_535, 65_535]].concat()), 3);
    let mut bench = Bench::of("S[]={@c![1],100000};R[]={@c?[1],100000};9*S[]||R[];");
    assert_eq!(bench.timed_step(0, &[1, 1]).total, 9_000_000_000_000_000_000);
    assert_eq!(bench.clock, Clock { ticks: 0, draws: 2 });
}

/// As a step in all but the clock: the answer, the listing, the state.
fn as_a_step(bench: &Bench, draw: u64, waiting: &[u16]) -> Bench {
    let (mut timed, mut plain) = (bench.clone(), bench.clone());
    assert_eq!(timed.timed_step(draw, waiting), plain.step(draw));
    assert!(timed.state == plain.state && timed.listing == plain.listing && timed.saves == plain.saves);
    timed
}

#[test]
fn a_timed_step_alters_what_a_step_does() {
    let bench =
        Bench::of("A[n]={c![n],1}.A[n+1]+{@d![n],1}.A[n]+{c?[0..9](x),2}.(A[x]||A[n])+{@d?[0..9](y),1}.A[y];3*A[1];");
    let total = bench.clone().list().total;
    let mut moved = 0;
    for part in 0..20 {
        let after = as_a_step(&bench, total / 20 * part, &[7, 7]);
        assert_eq!(after.clock.draws, 2);
        moved += u32::from(after.state != bench.state);
    }
    // A handshake of equal values moves nothing here.
    assert!(moved > 5, "{moved}");
}

/// Refused with this number, entry count and total: neither state nor clock moves, the listing is filled.
fn refused(bench: &Bench, number: u64, draw: u64, waiting: &[u16]) {
    let mut after = bench.clone();
    after.listing.fill(9);
    let answer = after.timed_step(draw, waiting);
    let mut listed = bench.clone();
    let expected = listed.list();
    assert_eq!(answer, Answer { number, ..expected });
    assert!(after.state == bench.state && after.clock == bench.clock && after.listing == listed.listing);
}

#[test]
fn fifteen_to_nineteen_come_before_the_draws() {
    let full = |text: &str| Bench::of(text);
    for waiting in [&[7, 7][..], &[7], &[2, 1, 1].repeat(32)] {
        refused(&full("A[]={go,0};A[];"), 15, 0, waiting);
        refused(&full("A[]={go,1};A[];"), 16, 100_000_000, waiting);
        refused(&full("A[n]={go,1}.A[1/n];A[0];"), 17, 0, waiting);
        refused(&full("A[]={go,1}.(A[]||A[]);256*A[];"), 18, 0, waiting);
        let mut bench = full("A[]={c![1000],1};A[];");
        let pairs: Vec<[i64; 10]> = (0..256).map(|value| [1, 1, 0, 0, 0, 0, 0, 1, value, 0]).collect();
        bench.light(&pairs);
        refused(&bench, 19, 0, waiting);
    }
    refused(&full(PLAIN), 23, 0, &[7]);
    refused(&full(PLAIN), 23, 0, &[]);
    refused(&full(PLAIN), 24, 0, &[2, 1, 1].repeat(32));
}

#[test]
fn a_clock_that_would_pass_its_range() {
    let at = |ticks, draws| Bench { clock: Clock { ticks, draws }, ..Bench::of(PLAIN) };
    // Draws 40000, 50000 take 6,103 ticks and two draws.
    let waiting = [40_000, 50_000];
    for (ticks, draws) in [(MOST - 6_103, 0), (0, MOST - 2), (MOST - 6_103, MOST - 2)] {
        let mut bench = at(ticks, draws);
        assert_eq!(bench.timed_step(0, &waiting).number, 0);
        assert_eq!(bench.clock, Clock { ticks: ticks + 6_103, draws: draws + 2 });
    }
    for (ticks, draws) in [(MOST - 6_102, 0), (MOST, 0), (0, MOST - 1), (0, MOST), (MOST, MOST)] {
        refused(&at(ticks, draws), 25, 0, &waiting);
        // 23 and 24 come before.
        refused(&at(ticks, draws), 23, 0, &[7]);
        refused(&at(ticks, draws), 24, 0, &[2, 1, 1].repeat(32));
    }
}

#[test]
fn eleven_judges_the_clock() {
    for clock in
        [Clock { ticks: MOST + 1, draws: 0 }, Clock { ticks: 0, draws: MOST + 1 }, Clock { ticks: u64::MAX, draws: 0 }]
    {
        let mut bench = Bench { clock, ..Bench::of(PLAIN) };
        let before = bench.clone();
        // Before 12 to 19 and 23.
        for (draw, waiting) in [(0, &[7, 7][..]), (u64::MAX, &[7, 7]), (0, &[])] {
            assert_eq!(bench.timed_step(draw, waiting), Answer::refusal(11));
        }
        assert!(bench == before);
        // Calls that aren't lent it don't judge it.
        assert_eq!(bench.list().number, 0);
        assert_eq!(bench.step(0).number, 0);
    }
    for clock in [Clock { ticks: MOST, draws: 0 }, Clock { ticks: 0, draws: MOST }] {
        assert_eq!(
            Bench { clock, ..Bench::of(PLAIN) }.timed_step(0, &[0, 0]).number,
            if clock.draws == 0 { 0 } else { 25 }
        );
    }
}

#[test]
fn one_and_eleven_to_fourteen() {
    for lengths in wrong_lengths(LISTING) {
        let (model, mut state, mut listing) = (vec![7; lengths.0], vec![-7; lengths.1], vec![77; lengths.2]);
        // Before 11, also of the clock.
        for ticks in [0, u64::MAX] {
            let mut clock = Clock { ticks, draws: 3 };
            let answer = second::timed_step(&model, &mut state, &mut listing, &[7, 7], 0, &mut clock);
            assert_eq!((answer, clock), (Answer::refusal(1), Clock { ticks, draws: 3 }));
        }
        assert!(state.iter().all(|&number| number == -7) && listing.iter().all(|&number| number == 77));
    }
    let mut bench = Bench::dirty();
    bench.clock = Clock::default();
    assert_eq!(bench.timed_step(0, &[7, 7]), Answer::refusal(11));
    assert!(bench.listing.iter().all(|&number| number == 77));
    let shakes = "S[]={@c![1],100000};R[]={@c?[1],100000};";
    for (text, number) in [
        ("A[n]={go,1*(1/n)};A[0];".to_string(), 12),
        (format!("{shakes}33*S[]||32*R[];"), 13),
        (format!("{shakes}10*S[]||R[];"), 14),
    ] {
        let mut bench = Bench { clock: Clock { ticks: 4, draws: 5 }, ..Bench::of(&text) };
        bench.listing.fill(9);
        let state = bench.state.clone();
        assert_eq!(bench.timed_step(0, &[]), Answer::refusal(number));
        assert!(bench.listing.iter().all(|&number| number == 0));
        assert_eq!((bench.state, bench.clock), (state, Clock { ticks: 4, draws: 5 }));
    }
}

#[test]
fn openings_zero_the_clock() {
    for text in [PLAIN, "", "A[]={go,1};257*A[];", "A[]={go,1}.B[];A[];", "\0"] {
        for clock in [Clock { ticks: 5, draws: 6 }, Clock { ticks: u64::MAX, draws: u64::MAX }] {
            let mut bench = Bench { clock, ..Bench::of(PLAIN) };
            bench.open(text);
            assert_eq!(bench.clock, Clock::default());
        }
    }
    let mut bench = Bench { clock: Clock { ticks: 5, draws: 6 }, ..Bench::of(PLAIN) };
    bench.saves.pop();
    assert_eq!(bench.open(PLAIN), Answer::refusal(1));
    assert_eq!(bench.clock, Clock { ticks: 5, draws: 6 });
}

#[test]
fn returns_bring_back_the_time() {
    let mut bench = Bench::of(PLAIN);
    bench.timed_step(0, &[40_000, 50_000]);
    bench.save("early");
    let (state, clock) = (bench.state.clone(), bench.clock);
    bench.timed_step(0, &[40_000, 50_000]);
    assert_eq!(bench.clock, Clock { ticks: 12_206, draws: 4 });
    assert_eq!(bench.return_to("early").number, 0);
    assert_eq!((&bench.state, bench.clock), (&state, clock));
    // Refused, it moves neither.
    bench.timed_step(0, &[40_000, 50_000]);
    let before = bench.clone();
    bench.return_to("late");
    assert!(bench == before);
}
