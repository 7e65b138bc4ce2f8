//! The steady profile (02, note 11).

mod common;

use common::*;
use second::generate::{lively, steady, Random};
use second::state::PROCESSES;
use second::{Answer, Clock, MODEL, SAVES, SEARCH, STATE};

/// What a steady opening answers, from buffers full of rubbish; a plain one of the same text accepts it.
fn opened(text: &str) -> (u64, u64) {
    let (mut plain, mut bench) = (Bench::dirty(), Bench::dirty());
    let accepted = plain.open(text);
    let answer = bench.open_steady(text);
    assert_eq!(answer, Answer { place: answer.place, ..Answer::refusal(answer.number) });
    if answer.number == 0 || answer.number == 29 {
        assert_eq!(accepted, Answer::default(), "{text}");
    } else {
        assert_eq!(accepted, answer);
    }
    if answer.number == 0 {
        // The buffers are those of a plain opening.
        assert!(bench == plain);
    } else {
        let zeros = Bench { listing: bench.listing.clone(), report: bench.report.clone(), ..Bench::new() };
        assert!(bench == zeros);
    }
    (answer.number, answer.place)
}

/// Refused with 29 at the `¶`.
fn unsteady(text: &str) {
    let place = text.find('¶').expect("a mark");
    assert_eq!(opened(&text.replace('¶', "")), (29, place as u64), "{text}");
}

fn accepts(text: &str) {
    assert_eq!(opened(text), (0, 0), "{text}");
}

#[test]
fn texts_that_are_steady() {
    accepts("A[]={a,1};A[];");
    accepts("A[]={a,1}.A[]+{b,1}.{c,1}.B[];B[]={d,1};A[]||B[];");
    // Groups of one item, nested too.
    accepts("A[]={a,1}.(A[]);A[];");
    accepts("A[]={a,1}.(((A[])));A[];");
    accepts("A[]={a,1}.({b,1}.(A[])+{c,1}.({d,1}));A[];");
    // The system line isn't asked, nor are brackets of other kinds.
    accepts("A[n]={c?[(1)..(2)](x),1*(2)}.A[(n)];A[1]||A[2]||3*A[3];");
    // A definition with several sums that no continuation calls.
    accepts("A[]={a,1}||{b,1};B[]={c,1}.B[];A[]||2*B[];");
    accepts("A[]={a,1};0*A[];");
    accepts("A[]={a,1}.A[];256*A[];");
}

#[test]
fn groups_with_more_than_one_item() {
    unsteady("A[]={a,1}.¶(A[]||A[]);A[];");
    unsteady("A[]={a,1}.¶({b,1}||{c,1});A[];");
    unsteady("A[]={a,1}.¶({b,1}||(A[]));A[];");
    // A group offends by its own items.
    unsteady("A[]={a,1}.(¶(A[]||A[]));A[];");
    unsteady("A[]={a,1}.(((¶(A[]||{b,1}))));A[];");
    unsteady("A[]={a,1}.¶((A[]||A[])||A[]);A[];");
    unsteady("A[]={a,1}.({b,1}.¶(A[]||A[])+{c,1}.(A[]||A[]));A[];");
    unsteady("A[]={a,1}.¶({b,1}.(A[]||A[])||A[]);A[];");
}

#[test]
fn calls_of_definitions_with_more_than_one_sum() {
    unsteady("A[]={a,1}||{b,1}.¶A[];A[];");
    unsteady("A[]={a,1}.¶B[];B[]={b,1}||{c,1};A[];");
    unsteady("A[]={a,1}.(¶B[]);B[]={b,1}||{c,1};A[];");
    unsteady("A[]={a,1}.A[]+{x,1}.{y,1}.¶B[];B[]={b,1}||{c,1}||{d,1};A[];");
    // The name of the call, not that of its definition.
    unsteady("B[n]={b,1}||{c,1};A[]={a,1}.¶B[1];A[];");
}

#[test]
fn the_first_in_the_text() {
    unsteady("A[]={a,1}.¶B[]+{b,1}.(A[]||A[]);B[]={b,1}||{c,1};A[];");
    unsteady("A[]={a,1}.¶(A[]||A[])+{b,1}.B[];B[]={b,1}||{c,1};A[];");
    // The bracket stands before the call in it.
    unsteady("A[]={a,1}.¶(B[]||A[]);B[]={b,1}||{c,1};A[];");
    // Definitions that no one calls, branches that no one takes.
    unsteady("A[]={a,1}.A[];B[]={b,1}.¶(B[]||B[]);A[];");
    unsteady("A[]={a,1}.A[]+[1>2]->{b,0}.¶(A[]||A[]);A[];");
}

#[test]
fn ten_comes_before_twenty_nine() {
    let text = "A[]={a,1}.(A[]||A[]);";
    unsteady(&format!("{}256*A[];", text.replace('(', "¶(")));
    assert_eq!(opened(&format!("{text}256*A[]||A[];")), (10, text.len() as u64));
    // And all before it.
    assert_eq!(opened("A[]={a,1}.(A[]||B[]);A[];"), (9, 16));
    assert_eq!(opened("A[]={a,1}.(A[]||A[];A[];"), (5, 19));
    assert_eq!(opened(""), (5, 0));
    assert_eq!(opened("\0"), (3, 0));
}

#[test]
fn twenty_nine_closes_and_forgets() {
    let mut bench = Bench::of("A[]={a,1}.A[];A[];");
    bench.timed_step(0, &[7, 7]);
    bench.save("a");
    bench.begin(8, "b");
    assert_eq!(bench.open_steady("A[]={a,1}.(A[]||A[]);A[];"), Answer { place: 10, ..Answer::refusal(29) });
    assert_eq!((bench.model.clone(), bench.state.clone()), (vec![0; MODEL], vec![0; STATE]));
    assert_eq!((bench.saves.clone(), bench.under_way.clone()), (vec![0; SAVES], vec![0; SEARCH]));
    assert_eq!(bench.clock, Clock::default());
    assert_eq!(bench.list(), Answer::refusal(11));
    // An accepted one forgets, too.
    let mut bench = Bench::of("A[]={a,1}.A[];A[];");
    bench.save("a");
    assert_eq!(bench.open_steady("A[]={a,1}.A[];A[];"), Answer::default());
    assert_eq!(bench.saves, vec![0; SAVES]);
    // 1 changes nothing.
    let mut bench = Bench::dirty();
    bench.under_way.pop();
    let before = bench.clone();
    assert_eq!(bench.open_steady("A[]={a,1}.(A[]||A[]);A[];"), Answer::refusal(1));
    assert!(bench == before);
}

#[test]
fn generated_texts() {
    let mut refused = 0;
    for seed in 0..60 {
        let text = |text: Vec<u8>| String::from_utf8(text).unwrap();
        accepts(&text(steady(&mut Random::new(seed))));
        let (number, _) = opened(&text(lively(&mut Random::new(seed))));
        assert!(number == 0 || number == 29);
        refused += u32::from(number == 29);
    }
    assert!(refused > 20 && refused < 60, "{refused}");
}

/// Up to the next opening no step raises the number of processes, and none meets 18.
#[test]
fn no_step_raises_the_number_of_processes() {
    second::model::keep_last();
    let mut fell = 0;
    for seed in 0..40 {
        let mut random = Random::new(seed);
        let mut bench = Bench::new();
        let text = String::from_utf8(steady(&mut random)).unwrap();
        assert_eq!(bench.open_steady(&text).number, 0);
        bench.save("start");
        for number in 0..60 {
            let before = bench.state[0];
            let draw = random.number() % bench.list().total.max(1);
            let answer = if number % 3 == 0 { bench.timed_step(draw, &[7, 7]) } else { bench.step(draw) };
            assert_ne!(answer.number, 18);
            assert!(bench.state[0] <= before);
            fell += u32::from(bench.state[0] < before);
            if number % 25 == 24 {
                assert_eq!(bench.return_to("start").number, 0);
            }
        }
    }
    assert!(fell > 5, "{fell}");
    // The most there may be at the start.
    let mut bench = Bench::new();
    assert_eq!(bench.open_steady("A[n]={a,1}.(A[n+1]);256*A[0];").number, 0);
    for _ in 0..20 {
        bench.take(0);
        assert_eq!(bench.state[0], PROCESSES as i64);
    }
}
