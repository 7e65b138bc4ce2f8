//! The number of the definition that each process carries, and the report by definition (02, note 6).

mod common;

use common::*;
use second::state::{DEFINITION, FIRST_PAIR, FIRST_PROCESS, PROCESS};
use second::{Answer, REPORT};

/// The first numbers of an accepted report. The others are zero, and the answer is that of a list.
fn reported(bench: &mut Bench, definitions: usize) -> Vec<u64> {
    let before = (bench.model.clone(), bench.state.clone());
    let listed = bench.list();
    let listing = bench.listing.clone();
    bench.report.fill(9);
    assert_eq!(bench.report(), listed);
    assert_eq!(listed.number, 0);
    assert_eq!((&bench.model, &bench.state, &bench.listing), (&before.0, &before.1, &listing));
    let (used, unused) = bench.report.split_at(definitions);
    assert!(unused.iter().all(|&number| number == 0));
    assert_eq!(used.iter().sum::<u64>(), listed.total);
    used.to_vec()
}

#[test]
fn definition_numbers() {
    let text = "A[]={a,1}.{b,1}.({c,1}+{d,1}.{e,1}||B[]||({f,1}||A[]))||{g,1};\
                B[]={h,1}.(A[]||{i,1});C[]={j,1}.B[];C[]||2*A[]||B[];";
    // Sums: 0 a, 1 b, 2 c d, 3 e, 4 f, 5 g; 6 h, 7 i; 8 j.
    let mut bench = Bench::of(text);
    assert_eq!(bench.processes(0), [[8], [0], [5], [0], [5], [6]]);
    assert_eq!(bench.definitions(), [2, 0, 0, 0, 0, 1]);
    // b is a prefix in the text of A; what its group has stands in A, but for the call of B.
    bench.take(1);
    bench.take(1);
    assert_eq!(bench.processes(0), [[8], [2], [6], [4], [0], [5], [5], [0], [5], [6]]);
    assert_eq!(bench.definitions(), [2, 0, 1, 0, 0, 0, 0, 0, 0, 1]);
    // The last B becomes A's sums and a sum of its own.
    bench.take(10);
    assert_eq!(bench.definitions(), [2, 0, 1, 0, 0, 0, 0, 0, 0, 0, 0, 1]);
    bench.take(0);
    assert_eq!(bench.definitions()[0], 1);
}

#[test]
fn eleven_for_definition_numbers() {
    let text = "A[n]={a,1}.{b,1}||{c,1};B[]={d,1};A[1]||B[];";
    let first = FIRST_PROCESS + DEFINITION;
    let fresh = Bench::of(text);
    assert_eq!(fresh.definitions(), [0, 0, 1]);
    assert_eq!((first, fresh.state[first + 2 * PROCESS]), (11, 1));
    let judged = |place: usize, number: i64| {
        let mut bench = Bench::of(text);
        bench.state[place] = number;
        bench.report.fill(9);
        let answer = bench.report();
        assert_eq!(answer.number == 11, bench.report.iter().all(|&number| number == 9));
        assert_eq!(bench.list(), answer);
        assert_eq!(bench.step(0).number, answer.number);
        answer.number
    };
    for process in 0..3 {
        let place = first + process * PROCESS;
        let right = fresh.state[place];
        assert_eq!(judged(place, right), 0);
        for wrong in [right - 1, right + 1, 1 - right, 2, 63, 64, i64::MAX, i64::MIN] {
            assert_eq!(judged(place, wrong), 11, "process {process}, definition {wrong}");
        }
    }
    // Rows that are unused.
    assert_eq!(judged(first + 3 * PROCESS, 1), 11);
    assert_eq!(judged(FIRST_PAIR - 1, 1), 11);
    assert_eq!(judged(FIRST_PAIR - 1, 0), 0);
    // A row of zeros is a process of the first definition with its first sum, if it has no locals to be there.
    let mut bench = Bench::of("A[]={a,1};B[]={b,2};B[];");
    bench.state[0] = 2;
    assert_eq!(reported(&mut bench, 2), [100_000_000, 200_000_000]);
}

#[test]
fn weights_by_definition() {
    let mut bench = Bench::of("A[n]={a,n}.{b,2}+{c,0.5};B[]={d,4}||{e,8};C[]={f,16}.A[3];2*A[1]||B[]||C[];");
    assert_eq!(reported(&mut bench, 3), [300_000_000, 1_200_000_000, 1_600_000_000]);
    // A's continuation is of A; it has b alone.
    bench.take(0);
    assert_eq!(reported(&mut bench, 3), [350_000_000, 1_200_000_000, 1_600_000_000]);
    // C becomes A[3].
    bench.take(5);
    assert_eq!(reported(&mut bench, 3), [700_000_000, 1_200_000_000, 0]);
    // Nothing at all.
    assert_eq!(reported(&mut Bench::of("A[]={a,1};0*A[];"), 0), []);
    assert_eq!(reported(&mut Bench::of("A[]={a,0};A[];"), 0), []);
}

#[test]
fn every_kind_counts_where_it_is_listed() {
    let mut bench = Bench::of(
        "Go[]={go,1};L[]={c![1],2};K[]={c#[1],4};R[]={c?[0..9],8};B[]={c?[0..9](x),16};H[]={~d?[0..9],32};\
         Go[]||L[]||K[]||R[]||B[]||H[];",
    );
    bench.state[1] = 2;
    bench.set_short_pair(0, [1, 0, 1, 1, 0]);
    bench.set_short_pair(1, [1, 0, 1, 2, 0]);
    // Two bindings.
    assert_eq!(reported(&mut bench, 6), [1, 2, 4, 8, 2 * 16, 32].map(|rate| rate * 100_000_000));
}

#[test]
fn a_handshake_counts_for_its_sender() {
    let text = "R[]={@c?[1],2}+{go,1};S[]={@c![1],3};";
    for system in ["R[]||S[];", "S[]||R[];"] {
        assert_eq!(reported(&mut Bench::of(&format!("{text}{system}")), 2), [100_000_000, 600_000_000]);
    }
    assert_eq!(reported(&mut Bench::of(&format!("{text}2*R[]||3*S[];")), 2), [200_000_000, 3_600_000_000]);
    // Both sides in one definition.
    assert_eq!(reported(&mut Bench::of("A[]={a,1};B[]={@c![1],2}||{@c?[1],5};B[];"), 2), [0, 1_000_000_000]);
}

#[test]
fn sixty_four_definitions() {
    let definitions: String = (0..64).map(|number| format!("D{number}[]={{go,{number}}};")).collect();
    let system: Vec<String> = (0..64).map(|number| format!("D{number}[]")).collect();
    let mut bench = Bench::of(&format!("{definitions}{};", system.join("||")));
    let expected: Vec<u64> = (0..64).map(|number| number * 100_000_000).collect();
    assert_eq!(reported(&mut bench, 64), expected);
    assert_eq!(bench.definitions()[63], 63);
    assert_eq!(reported(&mut Bench::of(&format!("{definitions}D63[];")), 64)[63], 6_300_000_000);
}

#[test]
fn the_largest_total() {
    let text = |more: &str| format!("S[]={{@c![1],100000}};R[]={{@c?[1],100000}};B[]={{go,{more}}};9*S[]||R[]||B[];");
    assert_eq!(reported(&mut Bench::of(&text("0")), 3), [9_000_000_000_000_000_000, 0, 0]);
    refused(&text("0.0001"), Answer::refusal(14));
}

/// A report is refused so, and zeroed.
fn refused(text: &str, expected: Answer) {
    let mut bench = Bench::of(text);
    bench.report.fill(9);
    assert_eq!(bench.report(), expected, "{text}");
    assert!(bench.report.iter().all(|&number| number == 0));
    assert_eq!(bench.list(), expected);
}

#[test]
fn twelve_to_fourteen_zero_the_report() {
    refused("A[n]={go,1}+[n>0]->{go,1*(1/0)};A[0]||2*A[1];", Answer { place: 1, branch: 1, ..Answer::refusal(12) });
    refused("S[]={@c![1],1};R[]={@c?[1],1};33*S[]||32*R[];", Answer::refusal(13));
    refused("S[]={@c![1],100000};R[]={@c?[1],100000};10*S[]||R[];", Answer::refusal(14));
}

#[test]
fn one_and_eleven_leave_the_report() {
    let bench = Bench::of("A[]={a,1};A[];");
    for (model, state, report) in wrong_lengths(REPORT) {
        let mut held = bench.model.clone();
        held.resize(model, 0);
        let mut numbers = bench.state.clone();
        numbers.resize(state, 0);
        let mut report = vec![9; report];
        assert_eq!(second::report(&held, &numbers, &mut report), Answer::refusal(1));
        assert!(report.iter().all(|&number| number == 9));
    }
    let mut closed = Bench::new();
    closed.report.fill(9);
    assert_eq!(closed.report(), Answer::refusal(11));
    assert!(closed.report.iter().all(|&number| number == 9));
    // The length is asked first.
    assert_eq!(second::report(&closed.model, &closed.state, &mut [9; REPORT - 1]), Answer::refusal(1));
}
