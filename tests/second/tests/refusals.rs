//! Each refusal from 1 to 19, with its place, what its answer carries and what it leaves in the
//! buffers.

mod common;

use common::*;
use second::state::{FIRST_PAIR, FIRST_PROCESS, PROCESS};
use second::{Answer, Clock, Opening, LISTING, MODEL, SAVES, SEARCH, STATE};

const PLAIN: &str = "A[]={go,1};A[];";

#[test]
fn one() {
    let text = PLAIN.as_bytes();
    for wrong in 0..8 {
        // One of the four is one shorter or one longer.
        let length = |number: usize, right: usize| if wrong / 2 == number { right + wrong % 2 * 2 - 1 } else { right };
        let (mut model, mut state) = (vec![7; length(0, MODEL)], vec![-7; length(1, STATE)]);
        let (mut saves, mut search) = (vec![-77; length(2, SAVES)], vec![-777; length(3, SEARCH)]);
        // Before question 2, too.
        for text in [text, &[0; 20_000]] {
            let mut clock = Clock { ticks: 7, draws: u64::MAX };
            let (model, state) = (&mut model[..], &mut state[..]);
            let lent = Opening { model, state, saves: &mut saves, search: &mut search, clock: &mut clock };
            assert_eq!(second::open(text, lent), Answer::refusal(1));
            assert_eq!(clock, Clock { ticks: 7, draws: u64::MAX });
        }
        assert!(model.iter().all(|&byte| byte == 7) && state.iter().all(|&number| number == -7));
        assert!(saves.iter().all(|&number| number == -77) && search.iter().all(|&number| number == -777));
    }
    for lengths in wrong_lengths(LISTING) {
        let (model, mut state, mut listing) = (vec![7; lengths.0], vec![-7; lengths.1], vec![77; lengths.2]);
        assert_eq!(second::list(&model, &state, &mut listing), Answer::refusal(1));
        assert_eq!(second::step(&model, &mut state, &mut listing, 0), Answer::refusal(1));
        assert!(state.iter().all(|&number| number == -7) && listing.iter().all(|&number| number == 77));
    }
}

#[test]
fn two_to_ten() {
    assert_eq!(answer_to(&[0; 16_385]), (2, 16_384));
    assert_eq!(answer_to(b"A[]={go,1};\x00A[];\x00"), (3, 11));
    refused(4, &format!("{}¶(", "(".repeat(24)));
    refused(5, "A[]={go,1};A[]¶");
    let long = format!("A[]={{c![1{}],1}};A[];", "+1".repeat(2_100));
    // Every token up to there is one byte long.
    assert_eq!(answer_to(long.as_bytes()), (6, 4_096));
    refused(7, "A[]={go,1};¶abcdefghijklmnopq[]={go,1};A[];");
    refused(8, "A[]={go,1};¶A[]={go,1};A[];");
    refused(9, "A[]={go,1}.¶B[];A[];");
    refused(10, "A[]={go,1}||{go,1}; ¶128*A[]||A[];");
}

#[test]
fn a_refused_opening_closes_the_model() {
    for text in ["", "A[]={go,1};A[];;", "A[]={go,1}.B[];A[];", "A[]={go,1};257*A[];"] {
        let mut bench = Bench::of(PLAIN);
        bench.list();
        let listing = bench.listing.clone();
        assert_ne!(bench.open(text).number, 0);
        assert_eq!(bench.model, vec![0; MODEL]);
        assert_eq!(bench.state, vec![0; STATE]);
        assert_eq!(bench.list(), Answer::refusal(11));
        assert_eq!(bench.step(0), Answer::refusal(11));
        assert_eq!(bench.listing, listing);
        assert_eq!(bench.state, vec![0; STATE]);
    }
}

/// The state is refused with 11, and nothing is changed.
fn not_a_state(bench: &mut Bench) {
    let state = bench.state.clone();
    bench.listing.fill(9);
    assert_eq!(bench.list(), Answer::refusal(11));
    assert_eq!(bench.step(0), Answer::refusal(11));
    assert_eq!(bench.state, state);
    assert!(bench.listing.iter().all(|&number| number == 9));
}

const STATES: &str = "A[n]={c?[0..9](x),1}.{d![x],1}.A[n]||{go,0};A[1];";

fn with(change: impl Fn(&mut Bench)) -> Bench {
    let mut bench = Bench::of(STATES);
    change(&mut bench);
    bench
}

#[test]
fn eleven_for_states() {
    let set = |place: usize, number: i64| with(move |bench| bench.state[place] = number);
    assert_eq!(Bench::of(STATES).processes(1), [[0, 1], [2, 1]]);
    // Counts.
    not_a_state(&mut set(0, -1));
    not_a_state(&mut set(0, 257));
    not_a_state(&mut set(0, i64::MAX));
    not_a_state(&mut set(0, i64::MIN));
    not_a_state(&mut set(1, -1));
    not_a_state(&mut set(1, 257));
    // A process too few: its numbers are unused and not 0. One too many: sum 0 with locals 0.
    not_a_state(&mut set(0, 1));
    assert_eq!(set(0, 3).list().number, 0);
    assert_eq!(set(0, 256).list().number, 0);
    // A pair of zeros has no values.
    not_a_state(&mut set(1, 1));
    // Sum numbers: 0 to 2.
    assert_eq!(set(2, 2).list().number, 0);
    not_a_state(&mut set(2, 3));
    not_a_state(&mut set(2, -1));
    not_a_state(&mut set(2, i64::MIN));
    // Locals.
    for number in [-1_099_511_627_775, 1_099_511_627_775] {
        assert_eq!(set(3, number).list().number, 0);
    }
    for number in [-1_099_511_627_776, 1_099_511_627_776, i64::MAX, i64::MIN] {
        not_a_state(&mut set(3, number));
    }
    // A local that the sum hasn't.
    not_a_state(&mut set(4, 1));
    not_a_state(&mut set(10, 1));
    // Sum 1 has two.
    assert_eq!(with(|bench| bench.set_process(0, &[1, 5, 6])).list().number, 0);
    not_a_state(&mut with(|bench| bench.set_process(0, &[1, 5, 6, 7])));
    // Unused numbers after the last process and the last pair.
    not_a_state(&mut set(FIRST_PROCESS + 2 * PROCESS, 1));
    not_a_state(&mut set(FIRST_PAIR - 1, 1));
    not_a_state(&mut set(FIRST_PAIR, 1));
    not_a_state(&mut set(STATE - 1, 1));
}

/// Pairs on channels of one item.
#[test]
fn eleven_for_pairs() {
    let lit = |pairs: &[Short]| {
        let mut bench = Bench::of(STATES);
        bench.state[1] = pairs.len() as i64;
        for (place, pair) in pairs.iter().enumerate() {
            bench.set_short_pair(place, *pair);
        }
        bench
    };
    let good = |pairs: &[Short]| assert_eq!(lit(pairs).list().number, 0, "{pairs:?}");
    let bad = |pairs: &[Short]| not_a_state(&mut lit(pairs));
    let (low, high) = (-1_099_511_627_775, 1_099_511_627_775);
    good(&[[0, low, 1, low, 0]]);
    good(&[[0, high, 2, high, low]]);
    bad(&[[0, low - 1, 1, 0, 0]]);
    bad(&[[0, high + 1, 1, 0, 0]]);
    bad(&[[0, 0, 1, low - 1, 0]]);
    bad(&[[0, 0, 1, high + 1, 0]]);
    bad(&[[0, 0, 2, 0, low - 1]]);
    bad(&[[0, 0, 2, 0, high + 1]]);
    // Kinds and channel names: c and d.
    good(&[[1, 0, 1, 0, 0]]);
    good(&[[1, 1, 1, 0, 0]]);
    bad(&[[1, 2, 1, 0, 0]]);
    bad(&[[1, -1, 1, 0, 0]]);
    bad(&[[2, 0, 1, 0, 0]]);
    bad(&[[-1, 0, 1, 0, 0]]);
    // One or two values; a second value that isn't one is 0.
    bad(&[[0, 0, 0, 0, 0]]);
    bad(&[[0, 0, 3, 0, 0]]);
    bad(&[[0, 0, -1, 0, 0]]);
    bad(&[[0, 0, 1, 0, 1]]);
    // Strictly ascending by kind, channel, count, values.
    good(&[[0, 5, 2, 9, 9], [0, 6, 1, -9, 0], [0, 6, 1, -8, 0], [0, 6, 2, -9, 0], [0, 6, 2, -9, 1], [1, 0, 1, 0, 0]]);
    bad(&[[0, 5, 1, 1, 0], [0, 5, 1, 1, 0]]);
    bad(&[[1, 0, 1, 0, 0], [0, 5, 1, 1, 0]]);
    bad(&[[0, 6, 1, 1, 0], [0, 5, 1, 1, 0]]);
    bad(&[[0, 5, 2, 0, 0], [0, 5, 1, 1, 0]]);
    bad(&[[0, 5, 1, 2, 0], [0, 5, 1, 1, 0]]);
    bad(&[[0, 5, 2, 1, 2], [0, 5, 2, 1, 1]]);
    bad(&[[0, 5, 1, 2, 0], [0, 5, 1, 3, 0], [0, 5, 1, 3, 0]]);
}

#[test]
fn eleven_for_models() {
    let set = |place: usize, byte: u8| {
        let mut bench = Bench::of(PLAIN);
        bench.model[place] = byte;
        bench
    };
    let length = PLAIN.len();
    // Another length, other bytes, bytes after the text.
    not_a_state(&mut set(0, length as u8 - 1));
    not_a_state(&mut set(0, length as u8 + 1));
    not_a_state(&mut set(1, 1));
    not_a_state(&mut set(1, 0x40));
    not_a_state(&mut set(1, 255));
    not_a_state(&mut set(2, b'$'));
    not_a_state(&mut set(2, 0));
    not_a_state(&mut set(2 + length, b' '));
    not_a_state(&mut set(MODEL - 1, 1));
    // A zeroed buffer, and a model whose text would be refused by 5, 7, 8, 9.
    not_a_state(&mut Bench::new());
    for text in ["A[]={go,1};A[]", "A[]={go,1};257*A[];", "A[]={go,1};A[]={go,1};A[];", "A[]={go,x};A[];"] {
        let mut bench = Bench::new();
        second::model::write_buffer(text.as_bytes(), &mut bench.model);
        not_a_state(&mut bench);
    }
    // A buffer that passes is judged as the model it holds.
    assert_eq!(set(2 + 8, b'3').list(), Answer { count: 1, total: 300_000_000, ..Answer::default() });
    // Question 10 isn't asked again.
    let mut bench = Bench::new();
    second::model::write_buffer(b"A[]={go,1};256*A[]||A[];", &mut bench.model);
    assert_eq!(bench.list(), Answer::default());
    bench.state[0] = 256;
    assert_eq!(bench.list(), Answer { count: 256, total: 25_600_000_000, ..Answer::default() });
}

/// The answer of list and step with this number; the listing is zeroed, the state kept.
fn refused_listing(text: &str, expected: Answer) {
    let mut bench = Bench::of(text);
    let state = bench.state.clone();
    for draw in [None, Some(0), Some(u64::MAX)] {
        bench.listing.fill(9);
        let answer = match draw {
            None => bench.list(),
            Some(draw) => bench.step(draw),
        };
        assert_eq!(answer, expected, "{text}");
        assert!(bench.filled(0).is_empty());
        assert_eq!(bench.state, state);
    }
}

#[test]
fn twelve_to_fourteen() {
    let at = |place, branch| Answer { place, branch, ..Answer::refusal(12) };
    refused_listing("A[n]={go,1}+[n>0]->{go,1*(1/0)};A[0]||2*A[1];", at(1, 1));
    for branch in [
        "{go,-1}",
        "{go,100001}",
        "{go,1*(0-1)}",
        "{go,1*(1/0)}",
        "{1/0![1],1}",
        "{c![1/0],1}",
        "{c![1,1/0],1}",
        "{c#[1/0],1}",
        "{c?[1/0],1}",
        "{c?[1..1/0],1}",
        "{c?[1\\1/0],1}",
        "{c?[1,1/0],1}",
        "{1/0?[1],1}",
        "{1/0?[1](x),1}",
        "{~c?[1/0],1}",
        "{~1/0?[1],1}",
        "{@c![1/0],1}",
        "{@1/0![1],1}",
        "{@c?[1/0],1}",
        "{@c?[2..1 inter 1/0](x),1}",
        "{@1/0?[1],1}",
        "[1/0>0]->{go,1}",
        "[0<1/0]->{go,1}",
        "[~1/0>0]->{go,1}",
        "[1>2 | 1/0>0]->{go,1}",
        "[1<2 & 1/0>0]->{go,1}",
    ] {
        refused_listing(&format!("A[]={{go,1}}||{{go,1}}+{{go,1}}+{branch};A[];"), at(1, 2));
    }
    // Place before branch.
    refused_listing("A[]={go,1}+{go,-1};B[]={go,-1};A[]||B[];", at(0, 1));
    // 12 before 13 and 14.
    refused_listing("S[]={@c![1],1};R[]={@c?[1],1};B[]={go,-1};40*S[]||40*R[]||B[];", at(80, 0));
    // 13 before 14.
    refused_listing("S[]={@c![1],100000};R[]={@c?[1],100000};40*S[]||40*R[];", Answer::refusal(13));
    refused_listing("S[]={@c![1],100000};R[]={@c?[1],100000};10*S[]||R[];", Answer::refusal(14));
}

/// A step with this draw is refused, and only fills the listing.
fn refused_step(bench: &mut Bench, draw: u64, expected: Answer, entries: &[Entry]) {
    let state = bench.state.clone();
    bench.listing.fill(9);
    assert_eq!(bench.step(draw), expected);
    assert_eq!(bench.filled(expected.count), entries);
    assert_eq!(bench.state, state);
}

#[test]
fn fifteen_and_sixteen() {
    let mut bench = Bench::of("A[]={go,0};2*A[];");
    let entries = [[1, 0, 0, 0, 0, 0, 0], [1, 1, 0, 0, 0, 0, 0]];
    for draw in [0, 1, u64::MAX] {
        refused_step(&mut bench, draw, Answer { count: 2, ..Answer::refusal(15) }, &entries);
    }
    refused_step(&mut Bench::of("A[]={go,1};0*A[];"), 0, Answer::refusal(15), &[]);
    let mut bench = Bench::of("A[]={go,0.0001};2*A[];");
    let entries = [[1, 0, 0, 0, 0, 0, 10_000], [1, 1, 0, 0, 0, 0, 10_000]];
    for draw in [20_000, 20_001, u64::MAX] {
        refused_step(&mut bench, draw, Answer { count: 2, total: 20_000, ..Answer::refusal(16) }, &entries);
    }
    assert_eq!(bench.step(19_999), Answer { count: 2, total: 20_000, chosen: 1, ..Answer::default() });
    assert_eq!(bench.step(9_999), Answer { count: 1, total: 10_000, ..Answer::default() });
}

#[test]
fn seventeen() {
    let answer = |count, total| Answer { count, total, ..Answer::refusal(17) };
    let wait = [1, 0, 0, 0, 0, 0, 100_000_000];
    let mut bench = Bench::of("A[n]={go,1}.A[1/n];A[0];");
    refused_step(&mut bench, 0, answer(1, 100_000_000), &[wait]);
    // A result beyond the range, at both ends; at the end itself it is one.
    for (start, next) in [("1099511627775", "n+1"), ("-1099511627775", "n-1")] {
        let mut bench = Bench::of(&format!("A[n]={{go,1}}.A[{next}];A[{start}];"));
        refused_step(&mut bench, 0, answer(1, 100_000_000), &[wait]);
    }
    let mut bench = Bench::of("A[n]={go,1}.A[n+1];A[1099511627774];");
    bench.take(0);
    assert_eq!(bench.processes(1), [[0, 1_099_511_627_775]]);
    // Anywhere in a group; only there where the draw chooses it.
    let mut bench = Bench::of("A[n]={go,1}.(A[1]||({go,1}||A[1/n]))+{go,1}.A[n];A[0];");
    refused_step(&mut bench, 0, answer(2, 200_000_000), &[wait, [1, 0, 1, 0, 0, 0, 100_000_000]]);
    assert_eq!(bench.step(100_000_000).number, 0);
    // Arguments of a later prefix aren't evaluated yet.
    assert_eq!(Bench::of("A[n]={go,1}.{go,1}.A[1/n];A[0];").step(0).number, 0);
    // At both sides of a handshake.
    let hand = [7, 0, 0, 1, 0, 0, 100_000_000];
    let mut bench = Bench::of("S[n]={@c![n],1}.S[1/n];R[]={@c?[0](x),1};S[0]||R[];");
    refused_step(&mut bench, 0, answer(1, 100_000_000), &[hand]);
    let mut bench = Bench::of("S[n]={@c![n],1}.S[n];R[]={@c?[0](x),1}.S[1/x];S[0]||R[];");
    refused_step(&mut bench, 0, answer(1, 100_000_000), &[hand]);
    // 17 before 18 and 19.
    let mut bench = Bench::of(&format!("A[n]={{c![n],1}}.(A[1/n]{});256*A[0];", "||A[n]".repeat(10)));
    bench.state[1] = 256;
    (0..256).for_each(|place| bench.set_short_pair(place, [1, 0, 1, 1 + place as i64, 0]));
    let entries: Vec<Entry> = (0..256).map(|place| [2, place, 0, 0, 0, 0, 100_000_000]).collect();
    refused_step(&mut bench, 0, answer(256, 25_600_000_000), &entries);
}

#[test]
fn eighteen() {
    let wait = |place| [1, place, 0, 0, 0, 0, 100_000_000];
    let answer = |count: u64| Answer { count, total: count * 100_000_000, ..Answer::refusal(18) };
    let mut bench = Bench::of("A[]={go,1}.(A[]||A[]);256*A[];");
    let entries: Vec<Entry> = (0..256).map(wait).collect();
    refused_step(&mut bench, 77 * 100_000_000, answer(256), &entries);
    let mut bench = Bench::of("A[]={go,1}.(A[]||A[]);255*A[];");
    assert_eq!(bench.step(254 * 100_000_000).number, 0);
    assert_eq!(bench.state[0], 256);
    // 18 before 19.
    let mut bench = Bench::of("A[]={c![0],1}.({go,1}||{go,1});256*A[];");
    bench.state[1] = 256;
    (0..256).for_each(|place| bench.set_short_pair(place, [1, 0, 1, 1 + place as i64, 0]));
    let entries: Vec<Entry> = (0..256).map(|place| [2, place, 0, 0, 0, 0, 100_000_000]).collect();
    refused_step(&mut bench, 0, answer(256), &entries);
    // Both processes of a handshake go.
    let text = "S[]={@c![1],1}.({go,0}||{go,0});R[]={@c?[1],1}.{go,0};B[]={go,0};S[]||R[]||254*B[];";
    let mut bench = Bench::of(text);
    let answer = bench.step(0);
    assert_eq!((answer.number, answer.count, answer.total), (18, 255, 100_000_000));
    let mut bench = Bench::of(&text.replace("254", "253"));
    assert_eq!(bench.step(0).number, 0);
    assert_eq!(bench.state[0], 256);
}

#[test]
fn nineteen() {
    let mut bench = Bench::of("A[n]={c![n],1}.A[n+1];A[0];");
    for _ in 0..256 {
        bench.take(0);
    }
    assert_eq!(bench.short_pairs()[255], [1, 0, 1, 255, 0]);
    refused_step(
        &mut bench,
        99_999_999,
        Answer { count: 1, total: 100_000_000, ..Answer::refusal(19) },
        &[[2, 0, 0, 0, 0, 0, 100_000_000]],
    );
}
