//! Stepping during a search (02, note 10).

mod common;

use common::*;
use second::generate::{edge_of_kind, lively, Random};
use second::pieces::{COUNT, COUNTED, DEPTH_PLACE, LENGTH, MET, RUN, START, WAIT};
use second::runs::Runs;
use second::search::{Walk, DEPTH};
use second::{engine, Answer, Found, Progress, SEARCH};

const DONE: Answer = Answer { number: 0, place: 0, branch: 0, count: 0, total: 0, chosen: 0 };

const NONE: Found = Found { number: 0, length: 0, run: [0; 8] };

/// Two entries at each state, and go after two a.
const TREE: &str = "A[n]=[n<2]->{a,1}.A[n+1]+{b,1}.A[0]+[n==2]->{go,1};A[0];";

fn begun(text: &str, depth: u64, name: &str) -> Bench {
    let mut bench = Bench::of(text);
    assert_eq!(bench.begin(depth, name), DONE);
    bench
}

#[test]
fn runs_are_counted_from_the_empty_one() {
    // Lengths 0, 1, 2: 1 + 2 + 4 runs; then aa b, aa go is the seventh and eighth of length three.
    let mut bench = begun(TREE, 8, "go");
    assert_eq!(bench.carry_on(1), Progress::going(1));
    assert_eq!(bench.carry_on(2), Progress::going(3));
    assert_eq!(bench.carry_on(4), Progress::going(7));
    // aab, then aago.
    assert_eq!(bench.carry_on(1), Progress::going(8));
    assert_eq!(bench.carry_on(1), Progress::ended(9, Found::run(&[0, 0, 1])));
    assert_eq!(bench.search(8, "go"), Found::run(&[0, 0, 1]));
}

#[test]
fn a_call_walks_that_many_unless_the_search_ends_in_it() {
    for piece in 1..12 {
        let mut bench = begun(TREE, 8, "go");
        let mut count = 0;
        loop {
            let progress = bench.carry_on(piece);
            count = (count + piece).min(9);
            if count == 9 {
                assert_eq!(progress, Progress::ended(9, Found::run(&[0, 0, 1])));
                break;
            }
            assert_eq!(progress, Progress::going(count));
        }
        assert_eq!(bench.under_way, [0; SEARCH]);
        assert_eq!(bench.carry_on(1), Progress::refusal(28));
    }
}

#[test]
fn the_last_run_up_to_the_depth_ends_it() {
    // 1 + 2 + 4 runs of at most two entries, full depth included.
    for (piece, calls) in [(7, 1), (6, 2), (1, 7), (4, 2), (100, 1)] {
        let mut bench = begun(TREE, 2, "go");
        for call in 1..=calls {
            let progress = bench.carry_on(piece);
            assert_eq!(progress.ended, u64::from(call == calls), "{piece} {call}");
            if call == calls {
                assert_eq!(progress, Progress::ended(7, NONE));
            }
        }
    }
    // A single run.
    let mut bench = begun("A[]={go,1};0*A[];", 8, "go");
    assert_eq!(bench.carry_on(1), Progress::ended(1, NONE));
    // Entries of weight zero are none.
    let mut bench = begun("A[]={go,0}+{a,1};A[];", 8, "go");
    assert_eq!(bench.carry_on(9), Progress::ended(2, NONE));
}

#[test]
fn twenty_seven_comes_at_the_end() {
    // The run a has no listing; b has one. Runs: empty, a, b, bc.
    let text = "A[n]={a,1}.D[0]+{b,1}.{c,1};D[n]={d,1*(1/n)};A[1];";
    let mut bench = begun(text, 8, "z");
    assert_eq!(bench.carry_on(3), Progress::going(3));
    assert_eq!(bench.carry_on(1), Progress::ended(4, Found::refusal(27)));
    assert_eq!(bench.under_way, [0; SEARCH]);
    // A run found wins.
    let mut bench = begun(text, 8, "c");
    assert_eq!(bench.carry_on(9), Progress::ended(4, Found::run(&[1, 0])));
    // Refused takings aren't counted: only the empty run is.
    let mut bench = begun("A[n]={a,1}.A[1/n];A[0];", 8, "z");
    assert_eq!(bench.carry_on(1), Progress::ended(1, Found::refusal(27)));
    // A present listing that is refused, too.
    let mut bench = begun("A[n]={a,1*(1/n)};A[0];", 8, "a");
    assert_eq!(bench.carry_on(5), Progress::ended(1, Found::refusal(27)));
    // At full depth no listing is made.
    let mut bench = begun("A[n]={a,1}.A[n-1]+{b,0*(1/n)};A[1];", 1, "z");
    assert_eq!(bench.carry_on(5), Progress::ended(2, NONE));
}

#[test]
fn by_nothing() {
    let mut bench = begun(TREE, 2, "go");
    let before = bench.clone();
    assert_eq!(bench.carry_on(0), Progress::going(0));
    assert!(bench == before);
    bench.carry_on(6);
    let before = bench.clone();
    assert_eq!(bench.carry_on(0), Progress::going(6));
    assert!(bench == before);
    assert_eq!(bench.carry_on(1), Progress::ended(7, NONE));
    assert_eq!(bench.carry_on(0), Progress::refusal(28));
}

#[test]
fn twenty_eight() {
    let mut bench = Bench::of(TREE);
    for number in [0, 1, u64::MAX] {
        assert_eq!(bench.carry_on(number), Progress::refusal(28));
    }
    // Count and number together, before anything is walked.
    let mut bench = begun(TREE, 2, "go");
    for number in [COUNTED + 1, u64::MAX] {
        let before = bench.clone();
        assert_eq!(bench.carry_on(number), Progress::refusal(28));
        assert!(bench == before);
    }
    assert_eq!(bench.carry_on(2), Progress::going(2));
    assert_eq!(bench.carry_on(COUNTED - 1), Progress::refusal(28));
    assert_eq!(bench.carry_on(u64::MAX - 1), Progress::refusal(28));
    assert_eq!(bench.carry_on(COUNTED - 2), Progress::ended(7, NONE));
}

#[test]
fn a_beginning_walks_nothing_and_moves_nothing() {
    let mut bench = Bench::of(TREE);
    let before = bench.clone();
    assert_eq!(bench.begin(8, "go"), DONE);
    assert_eq!(bench.under_way[COUNT], 0);
    bench.under_way.fill(0);
    assert!(bench == before);
    // Names that no wait has are begun, too.
    for name in ["", "z", "\0", "A", "abcdefghijklmnopq"] {
        let mut bench = begun(TREE, 1, name);
        assert_eq!(bench.carry_on(9), Progress::ended(3, NONE));
    }
}

#[test]
fn another_beginning_replaces_it_and_a_refused_one_does_not() {
    let mut bench = begun(TREE, 8, "go");
    bench.carry_on(5);
    for depth in [0, 9, u64::MAX] {
        let before = bench.clone();
        assert_eq!(bench.begin(depth, "a"), Answer::refusal(26));
        assert!(bench == before);
    }
    assert_eq!(bench.begin(1, "a"), DONE);
    assert_eq!(bench.carry_on(5), Progress::ended(2, Found::run(&[0])));
}

#[test]
fn the_answer_concerns_the_state_at_which_it_began() {
    let mut bench = begun(TREE, 8, "go");
    assert_eq!(bench.carry_on(3), Progress::going(3));
    bench.save("kept");
    bench.take(0);
    bench.take(0);
    bench.timed_step(0, &[7, 7]);
    assert_eq!(bench.run(&[0, 0], &[7; 8], &mut [0; 16], 2).steps, 2);
    bench.list();
    assert_eq!(bench.carry_on(3), Progress::going(6));
    bench.return_to("kept");
    bench.forget("kept");
    bench.search(3, "a");
    bench.report();
    assert_eq!(bench.carry_on(100), Progress::ended(9, Found::run(&[0, 0, 1])));
}

#[test]
fn openings_end_it() {
    for text in [TREE, "", "A[]={go,1};257*A[];", "\0"] {
        let mut bench = begun(TREE, 8, "go");
        bench.carry_on(2);
        bench.open(text);
        assert_eq!(bench.under_way, [0; SEARCH]);
        let number = if text == TREE { 28 } else { 11 };
        assert_eq!(bench.carry_on(1), Progress::refusal(number));
    }
    // The steady profile's, too: accepted, and refused by 29.
    for (text, number) in [(TREE, 0), ("A[]={go,1}.(A[]||A[]);A[];", 29)] {
        let mut bench = begun(TREE, 8, "go");
        bench.carry_on(2);
        assert_eq!(bench.open_steady(text).number, number);
        assert_eq!(bench.under_way, [0; SEARCH]);
    }
    let mut bench = begun(TREE, 8, "go");
    bench.saves.pop();
    let before = bench.clone();
    assert_eq!(bench.open(TREE), Answer::refusal(1));
    assert!(bench == before);
}

#[test]
fn one_and_eleven() {
    for lengths in wrong_lengths(SEARCH) {
        let (model, state, mut search) = (vec![7; lengths.0], vec![-7; lengths.1], vec![-77; lengths.2]);
        assert_eq!(second::begin(&model, &state, &mut search, b"a", 0), Answer::refusal(1));
        assert_eq!(second::carry_on(&model, &state, &mut search, u64::MAX), Progress::refusal(1));
        assert!(search.iter().all(|&number| number == -77));
    }
    let mut bench = Bench::new();
    assert_eq!(bench.begin(0, "a"), Answer::refusal(11));
    assert_eq!(bench.carry_on(u64::MAX), Progress::refusal(11));
    // A state that is none, though the search has another.
    let mut bench = begun(TREE, 8, "go");
    bench.state[0] = 257;
    let before = bench.clone();
    assert_eq!(bench.begin(0, "a"), Answer::refusal(11));
    assert_eq!(bench.carry_on(u64::MAX), Progress::refusal(11));
    assert!(bench == before);
}

/// Waits z, a, b, go. At A[5]: a leads to A[6], b is refused by 17, go ends it.
const STRAW: &str = "B[]={z,1};A[n]=[n<7]->{a,1}.A[n+1]+{b,1}.A[1/(n-5)]+{go,1};A[5];";

/// A search buffer with these numbers first, and then the opened state of that text.
fn from_the_opened_state(numbers: [i64; 13]) -> Vec<i64> {
    // One process and no pair; sum 1, local 5, definition 1.
    let state = [1, 0, 1, 5, 0, 0, 0, 0, 0, 0, 0, 1];
    let mut buffer = [&numbers[..], &state[..]].concat();
    buffer.resize(5_135, 0);
    buffer
}

#[test]
fn where_the_numbers_of_a_search_stand() {
    // Depth, wait, count, flag, length, eight entries.
    let mut bench = begun(STRAW, 8, "c");
    assert!(bench.under_way == from_the_opened_state([8, 0, 0, 0, 0, 0, 0, 0, 0, 0, 0, 0, 0]));
    assert_eq!(bench.carry_on(1), Progress::going(1));
    assert!(bench.under_way == from_the_opened_state([8, 0, 1, 0, 0, 0, 0, 0, 0, 0, 0, 0, 0]));
    // The refusal of b comes after a, and counts with go alone.
    assert_eq!(bench.carry_on(1), Progress::going(2));
    assert!(bench.under_way == from_the_opened_state([8, 0, 2, 0, 1, 0, 0, 0, 0, 0, 0, 0, 0]));
    bench.take(0);
    assert_eq!(bench.carry_on(1), Progress::going(3));
    assert!(bench.under_way == from_the_opened_state([8, 0, 3, 1, 1, 2, 0, 0, 0, 0, 0, 0, 0]));
    // A[6]: a, b that leads to A[1], go.
    assert_eq!(bench.carry_on(2), Progress::going(5));
    assert!(bench.under_way == from_the_opened_state([8, 0, 5, 1, 2, 0, 1, 0, 0, 0, 0, 0, 0]));
    // At a greater length, too; the next is one of three entries.
    assert_eq!(bench.carry_on(1), Progress::going(6));
    assert!(bench.under_way == from_the_opened_state([8, 0, 6, 1, 2, 0, 2, 0, 0, 0, 0, 0, 0]));
    let progress = bench.carry_on(COUNTED - 6);
    assert_eq!((progress.number, progress.ended), (27, 1));
    assert!(bench.under_way == vec![0; 5_135]);
    // Numbers of waits, and another state.
    for (name, wait) in [("z", 1), ("a", 2), ("b", 3), ("go", 4), ("A", 0), ("", 0)] {
        let bench = begun(STRAW, 1, name);
        assert!(bench.under_way == from_the_opened_state([1, wait, 0, 0, 0, 0, 0, 0, 0, 0, 0, 0, 0]));
    }
    let mut bench = Bench::of(STRAW);
    bench.take(0);
    assert_eq!(bench.begin(3, "go"), DONE);
    let mut expected = from_the_opened_state([3, 4, 0, 0, 0, 0, 0, 0, 0, 0, 0, 0, 0]);
    expected[16] = 6;
    assert!(bench.under_way == expected);
    // The run to the wait ends it.
    let mut bench = begun(STRAW, 8, "go");
    assert_eq!(bench.carry_on(3), Progress::ended(3, Found::run(&[2])));
    assert!(bench.under_way == vec![0; 5_135]);
}

#[test]
fn what_comes_after_the_run_walked_last_is_not_met_yet() {
    // a, then b that is refused, then no run at all: the look for another one ends it, and then it counts.
    let mut bench = begun("A[n]={a,1}+{b,1}.A[1/n];A[0];", 1, "c");
    assert_eq!(bench.carry_on(1), Progress::going(1));
    assert_eq!(bench.under_way[MET], 0);
    assert_eq!(bench.carry_on(1), Progress::ended(2, Found::refusal(27)));
    // The listing after a is refused. It is met again with each greater length, as b's is not.
    let text = "A[n]={a,1}.D[0]+{b,1}.{c,1}.{d,1};D[n]={d,1*(1/n)};A[1];";
    let mut bench = begun(text, 8, "z");
    for (count, met) in [(1, 0), (2, 0), (3, 0), (4, 1)] {
        assert_eq!(bench.carry_on(1), Progress::going(count));
        assert_eq!(bench.under_way[MET], met, "{count}");
    }
    bench.under_way[MET] = 0;
    assert_eq!(bench.carry_on(1), Progress::ended(5, Found::refusal(27)));
    // Not past it in its own length.
    let mut bench = begun(text, 2, "z");
    bench.carry_on(3);
    for (entries, number) in [([0, 0], 27), ([1, 0], 0)] {
        bench.under_way[LENGTH] = 1 + entries[0];
        bench.under_way[RUN..RUN + 2].copy_from_slice(&entries);
        let mut other = bench.clone();
        assert_eq!(other.carry_on(0), Progress::going(3));
        assert_eq!(other.carry_on(9).number, number);
    }
}

/// The walk that goes on from a run is the rest of the walk that comes to it, and meets what that meets then.
#[test]
fn the_walk_goes_on_from_any_run() {
    second::model::keep_last();
    let mut refusals = 0;
    for seed in 0..150 {
        let mut random = Random::new(seed);
        let bench = Bench::of(&String::from_utf8(second::mazes::maze(&mut random)).unwrap());
        let (model, state) = engine::held(&bench.model, &bench.state).unwrap();
        let depth = 1 + random.below(3);
        let mut walk = Walk::new(model.clone(), state.clone(), depth);
        let Some(run) = walk.nth(random.below(12)) else { continue };
        walk.meets_refusal = false;
        let mut after = Walk::after(model, state, depth, &run.entries).expect("a run");
        loop {
            let (one, other) = (walk.next().map(|run| run.entries), after.next().map(|run| run.entries));
            assert!(one == other && walk.meets_refusal == after.meets_refusal, "seed {seed}");
            if one.is_none() {
                break;
            }
        }
        refusals += u32::from(after.meets_refusal);
    }
    assert!(refusals > 5, "{refusals}");
}

#[test]
fn eleven_judges_the_search() {
    // After five runs: empty, a, b, aa, ab.
    let mut held = begun(TREE, 8, "go");
    held.carry_on(5);
    let [one, two, past] = [RUN, RUN + 1, RUN + 2];
    assert_eq!(held.under_way[..START], [8, 3, 5, 0, 2, 0, 1, 0, 0, 0, 0, 0, 0]);
    let judged = |changes: &[(usize, i64)]| {
        let mut bench = held.clone();
        for &(place, number) in changes {
            bench.under_way[place] = number;
        }
        let before = bench.clone();
        let number = bench.carry_on(0).number;
        assert!(bench == before);
        assert_eq!(bench.begin(9, "a").number, if number == 11 { 11 } else { 26 });
        number
    };
    assert_eq!(judged(&[]), 0);
    // The depth, at least the run's length.
    assert_eq!([2, 8].map(|depth| judged(&[(DEPTH_PLACE, depth)])), [0, 0]);
    assert_eq!([0, 1, 9, -1, i64::MIN].map(|depth| judged(&[(DEPTH_PLACE, depth)])), [11; 5]);
    // Waits are a, b, go; 0 is none.
    assert_eq!([0, 1, 2, 3].map(|wait| judged(&[(WAIT, wait)])), [0; 4]);
    assert_eq!([4, -1, i64::MAX].map(|wait| judged(&[(WAIT, wait)])), [11; 3]);
    let most = COUNTED as i64;
    assert_eq!([1, most].map(|count| judged(&[(COUNT, count)])), [0, 0]);
    assert_eq!([0, -1, most + 1, i64::MIN].map(|count| judged(&[(COUNT, count)])), [11; 4]);
    assert_eq!([0, 1].map(|met| judged(&[(MET, met)])), [0, 0]);
    assert_eq!([2, -1].map(|met| judged(&[(MET, met)])), [11, 11]);
    // The run: another one, one that is none, numbers past it.
    assert_eq!(judged(&[(one, 1)]), 0);
    assert_eq!([2, -1].map(|entry| judged(&[(one, entry)])), [11, 11]);
    assert_eq!(judged(&[(two, 2)]), 11);
    assert_eq!([past, RUN + 7].map(|place| judged(&[(place, 1)])), [11, 11]);
    assert_eq!(judged(&[(LENGTH, 3)]), 0);
    assert_eq!(judged(&[(LENGTH, 3), (past, 2)]), 11);
    assert_eq!(judged(&[(LENGTH, 1), (two, 0)]), 0);
    assert_eq!([9, -1].map(|length| judged(&[(LENGTH, length)])), [11, 11]);
    // Absent exactly when the count is 0: the empty run is one.
    assert_eq!(judged(&[(COUNT, 0), (LENGTH, 0), (two, 0)]), 0);
    assert_eq!(judged(&[(LENGTH, 0), (two, 0)]), 0);
    assert_eq!(judged(&[(COUNT, 0), (LENGTH, 1), (two, 0)]), 11);
    // The state at which it began.
    assert_eq!(judged(&[(START, 257)]), 11);
    assert_eq!(judged(&[(SEARCH - 1, 1)]), 11);
    assert_eq!(judged(&[(START + 3, 1)]), 0);
    // Nothing but zeros is none.
    let mut bench = held.clone();
    bench.under_way.fill(0);
    assert_eq!(bench.carry_on(0).number, 28);
    for place in 0..SEARCH {
        bench.under_way[place] = 1;
        // A search to a depth of 1 for no wait, from a state of no process, is one.
        assert_eq!(bench.carry_on(0).number, if place == DEPTH_PLACE { 0 } else { 11 }, "{place}");
        bench.under_way[place] = 0;
    }
    // No entry of weight zero, none that is refused.
    let mut bench = begun("A[n]={a,0}+{b,1}.A[1/n]+{c,1}.A[n];A[0];", 8, "z");
    bench.carry_on(2);
    assert_eq!((bench.under_way[LENGTH], bench.under_way[one]), (1, 2));
    for (entry, number) in [(0, 11), (1, 11), (2, 0), (3, 11)] {
        bench.under_way[one] = entry;
        assert_eq!(bench.carry_on(0).number, number);
    }
}

#[test]
fn a_buffer_that_passes_is_judged_as_the_search_it_holds() {
    // A count that isn't that of its run.
    let mut bench = begun(TREE, 2, "go");
    bench.carry_on(5);
    bench.under_way[COUNT] = 1_000;
    assert_eq!(bench.carry_on(1), Progress::going(1_001));
    assert_eq!(bench.carry_on(9), Progress::ended(1_002, NONE));
    // Counts at the end of their range.
    let mut bench = begun(TREE, 8, "go");
    bench.carry_on(3);
    for (below, number) in [(2, 3), (1, 2), (0, 1)] {
        bench.under_way[COUNT] = (COUNTED - below) as i64;
        assert_eq!(bench.carry_on(number), Progress::refusal(28));
    }
    assert_eq!(bench.carry_on(0), Progress::going(COUNTED));
    bench.under_way[COUNT] = COUNTED as i64 - 2;
    assert_eq!(bench.carry_on(2), Progress::going(COUNTED));
    assert_eq!(bench.carry_on(1), Progress::refusal(28));
    // One that says that a refusal was met.
    let mut bench = begun(TREE, 2, "go");
    bench.under_way[MET] = 1;
    assert_eq!(bench.carry_on(9), Progress::ended(7, Found::refusal(27)));
    // One whose run is the last.
    let mut bench = begun(TREE, 2, "go");
    bench.carry_on(6);
    bench.under_way[LENGTH] = 2;
    bench.under_way[RUN..RUN + 2].copy_from_slice(&[1, 1]);
    assert_eq!(bench.carry_on(0), Progress::going(6));
    assert_eq!(bench.carry_on(1), Progress::ended(6, NONE));
}

/// How many runs come up to the first to the wait, that one with them, or up to the depth: by all runs.
fn counted(bench: &Bench, depth: u64, name: &str) -> u64 {
    let (model, state) = engine::held(&bench.model, &bench.state).unwrap();
    let runs = Runs::of(&model, &state, name.as_bytes(), depth as usize);
    let up_to = |run: &&Vec<u64>| runs.first().is_none_or(|first| (run.len(), *run) <= (first.len(), first));
    runs.all.iter().filter(up_to).count() as u64
}

/// The answer in pieces is that of a search in one call.
#[test]
fn random_models_in_pieces() {
    second::model::keep_last();
    let (mut found, mut none, mut refused) = (0, 0, 0);
    for seed in 0..90 {
        let mut random = Random::new(seed);
        let text = if seed % 3 == 0 { edge_of_kind(&mut random, 19 + seed as usize % 2) } else { lively(&mut random) };
        let mut bench = Bench::of(&String::from_utf8(text).unwrap());
        if bench.list().count > 12 {
            continue;
        }
        let (depth, name) = (1 + random.below(2) as u64, *random.pick(&["go", "tick", "n", "A", "c", "tock"]));
        let expected = bench.search(depth, name);
        assert_eq!(bench.begin(depth, name), DONE);
        let mut whole = bench.clone();
        let all = whole.carry_on(COUNTED);
        assert_eq!(all, Progress::ended(counted(&bench, depth, name), expected), "seed {seed}");
        let mut count = 0;
        while count < all.count {
            let piece = random.below(5) as u64;
            let progress = bench.carry_on(piece);
            count += piece;
            if count < all.count {
                assert_eq!(progress, Progress::going(count), "seed {seed}");
            } else {
                assert_eq!(progress, all, "seed {seed}");
            }
            if random.chance(30) {
                bench.step(0);
            }
        }
        found += u32::from(expected.length > 0);
        none += u32::from(expected == NONE);
        refused += u32::from(expected.number == 27);
    }
    assert!(found > 10 && none > 10 && refused > 0, "{found} {none} {refused}");
    assert_eq!(DEPTH, 8);
}
