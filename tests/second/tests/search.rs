//! Can this ever happen? (02, notes 8 and 9).

mod common;

use common::*;
use second::generate::{edge_of_kind, lively, Random};
use second::mazes::maze;
use second::runs::Runs;
use second::search::Walk;
use second::{Found, MODEL, STATE};

/// A run of these entries is found.
fn run(entries: &[u64]) -> Found {
    Found::run(entries)
}

const NONE: Found = Found { number: 0, length: 0, run: [0; 8] };

#[test]
fn the_wait_itself() {
    let bench = Bench::of("A[n]={a,1}.A[n+1]+[n>2]->{b,1}.A[n];A[0];");
    assert_eq!(bench.search(1, "a"), run(&[0]));
    // b is the second entry once n is 3.
    assert_eq!(bench.search(4, "b"), run(&[0, 0, 0, 1]));
    assert_eq!(bench.search(8, "b"), run(&[0, 0, 0, 1]));
    for depth in 1..4 {
        assert_eq!(bench.search(depth, "b"), NONE);
    }
}

#[test]
fn the_present_state_is_not_touched() {
    let bench = Bench::of("A[n]={a,1}.A[n+1];A[0];");
    let (model, state) = (bench.model.clone(), bench.state.clone());
    bench.search(8, "a");
    bench.search(8, "b");
    assert!(bench.model == model && bench.state == state);
    // It concerns the present state, not the start.
    let mut bench = Bench::of("A[n]=[n>0]->{a,1}.A[n-1];A[2];");
    assert_eq!(bench.search(1, "a"), run(&[0]));
    bench.take(0);
    bench.take(0);
    assert_eq!(bench.search(8, "a"), NONE);
}

#[test]
fn names_are_bytes() {
    let bench = Bench::of("A[]={ab,1}+{c![1],1}+{abcdefghijklmnop,1}+{_1,1};A[];");
    assert_eq!(bench.search(1, "ab"), run(&[0]));
    assert_eq!(bench.search(1, "abcdefghijklmnop"), run(&[2]));
    assert_eq!(bench.search(1, "_1"), run(&[3]));
    // Other bytes, beginnings, channels, definitions.
    for name in ["", "a", "abc", "AB", "c", "A", "abcdefghijklmnopq", "ab ", "\0", "ä", "go"] {
        assert_eq!(bench.search(8, name), NONE, "{name}");
    }
    assert_eq!(second::search(&bench.model, &bench.state, &[255; 70_000], 3), NONE);
}

#[test]
fn only_waits_count() {
    // A launch on c, a receive, a handshake; a wait of the same name comes after them.
    let bench = Bench::of("A[]={c![1],1}.{c?[1],1}.{c,1};A[];");
    assert_eq!(bench.search(2, "c"), NONE);
    assert_eq!(bench.search(3, "c"), run(&[0, 0, 0]));
}

#[test]
fn weight_zero_is_numbered_and_never_taken() {
    let bench = Bench::of("A[]={a,0}.{c,1}+{b,1}.{d,0}+{e,1};A[];");
    assert_eq!(bench.search(8, "a"), NONE);
    assert_eq!(bench.search(8, "c"), NONE);
    assert_eq!(bench.search(8, "d"), NONE);
    assert_eq!(bench.search(8, "e"), run(&[2]));
    // Refusals on taking one don't count.
    let bench = Bench::of("A[n]={a,0}.A[1/n]+{b,1};A[0];");
    assert_eq!(bench.search(8, "a"), NONE);
}

#[test]
fn the_first_run_is_answered() {
    // The shortest, though another comes first by numbers.
    let bench = Bench::of("A[]={x,1}.{go,1}+{go,1};A[];");
    assert_eq!(bench.search(8, "go"), run(&[1]));
    // Among equals the one whose entries come first, compared from the left.
    let bench = Bench::of("A[]={x,1}.{y,1}+{z,1}.({y,1}||{go,1})+{w,1}.{go,1};A[];");
    assert_eq!(bench.search(8, "go"), run(&[1, 1]));
    // Handshakes and binding receives are entries like others.
    let mut bench = Bench::of(
        "A[]={c?[0..9](x),1}.B[x];B[n]=[n==2]->{go,1};S[]={@d![3],1};R[]={@d?[0..9](y),1}.B[y-1];A[]||S[]||R[];",
    );
    bench.light(&[[1, 1, 0, 0, 0, 0, 0, 1, 1, 0], [1, 1, 0, 0, 0, 0, 0, 1, 2, 0]]);
    assert_eq!(bench.search(8, "go"), run(&[1, 0]));
}

#[test]
fn none_only_if_no_run_meets_a_refusal() {
    // 12 after one entry.
    let bench = Bench::of("A[n]={a,1}.A[n+1]+[n>0]->{b,1*(1/(n-1))};A[0];");
    assert_eq!(bench.search(1, "z"), NONE);
    assert_eq!(bench.search(2, "z"), Found::refusal(27));
    // A run found wins over it.
    assert_eq!(bench.search(8, "a"), run(&[0]));
    // 13 and 14 after one entry.
    let (few, much) = ("S[]={@c![1],1};R[]={@c?[1],1};", "S[]={@c![1],100000};R[]={@c?[1],100000};");
    let many = vec!["S[]"; 31].join("||");
    for text in [
        format!("{few}A[]={{a,1}}.({many});A[]||S[]||33*R[];"),
        format!("{much}A[]={{a,1}}.(S[]||S[]);A[]||8*S[]||R[];"),
    ] {
        let bench = Bench::of(&text);
        assert_eq!([1, 2].map(|depth| bench.search(depth, "z")), [NONE, Found::refusal(27)], "{text}");
    }
    let bench = Bench::of(&format!("{few}A[]={{a,1}}.S[];A[]||32*S[]||33*R[];"));
    assert_eq!(bench.search(1, "z"), Found::refusal(27));
    // 17, 18, 19 by taking one more entry.
    assert_eq!(Bench::of("A[n]={a,1}.A[1/n];A[0];").search(1, "z"), Found::refusal(27));
    assert_eq!(Bench::of("A[n]={a,1}.A[n-1]+{b,1}.A[1/n];A[1];").search(1, "z"), NONE);
    assert_eq!(Bench::of("A[n]={a,1}.A[n-1]+{b,1}.A[1/n];A[1];").search(2, "z"), Found::refusal(27));
    assert_eq!(Bench::of("A[]={a,1}.(B[]||B[]);B[]={b,0};A[]||255*B[];").search(1, "z"), Found::refusal(27));
    assert_eq!(Bench::of("A[]={a,1}.(B[]||B[]);B[]={b,0};A[]||254*B[];").search(1, "z"), NONE);
    let mut bench = Bench::of("A[]={c![1000],1};A[];");
    let pairs: Vec<[i64; 10]> = (0..256).map(|value| [1, 1, 0, 0, 0, 0, 0, 1, value, 0]).collect();
    bench.light(&pairs);
    assert_eq!(bench.search(1, "z"), Found::refusal(27));
    bench.state[1] = 255;
    bench.set_pair(255, [0; 10]);
    assert_eq!(bench.search(1, "z"), NONE);
}

#[test]
fn the_present_listing_refused() {
    let shakes = "S[]={@c![1],100000};R[]={@c?[1],100000};";
    for (text, number) in [
        ("A[n]={go,1}+{b,1*(1/n)};A[0];".to_string(), 12),
        (format!("{shakes}A[]={{go,1}};A[]||33*S[]||32*R[];"), 13),
        (format!("{shakes}A[]={{go,1}};A[]||10*S[]||R[];"), 14),
    ] {
        let mut bench = Bench::of(&text);
        assert_eq!(bench.list().number, number);
        for depth in 1..=8 {
            assert_eq!(bench.search(depth, "go"), Found::refusal(27));
        }
    }
}

#[test]
fn at_full_depth_no_listing_is_made() {
    // The state after the only entry doesn't list.
    let bench = Bench::of("A[n]={a,1}.A[n-1]+{b,0*(1/n)};A[1];");
    assert_eq!(bench.search(1, "z"), NONE);
    assert_eq!(bench.search(2, "z"), Found::refusal(27));
    assert_eq!(bench.search(1, "a"), run(&[0]));
}

#[test]
fn the_wait_must_be_taken_unrefused() {
    let bench = Bench::of("A[n]={go,1}.A[1/n]+{x,1}.A[n+1];A[0];");
    // Not the first entry, which 17 refuses, but the one after x.
    assert_eq!(bench.search(1, "go"), Found::refusal(27));
    assert_eq!(bench.search(2, "go"), run(&[1, 0]));
}

#[test]
fn a_run_goes_on_past_a_dead_end() {
    let bench = Bench::of("A[]={x,1}.D[0]+{y,1}.{go,1};D[n]={d,1*(1/n)};A[];");
    assert_eq!(bench.search(8, "go"), run(&[1, 0]));
    assert_eq!(bench.search(8, "z"), Found::refusal(27));
}

#[test]
fn depths_and_numbers() {
    let bench = Bench::of("A[]={go,1}.A[];A[];");
    for depth in [0, 9, 10, 256, 257, 1 << 32, (1 << 32) + 1, u64::MAX] {
        assert_eq!(bench.search(depth, "go"), Found::refusal(26));
    }
    for depth in 1..=8 {
        assert_eq!(bench.search(depth, "go"), run(&[0]));
    }
    // Eight entries.
    let bench = Bench::of("A[n]=[n<7]->{a,1}.A[n+1]+[n==7]->{go,1};A[0];");
    assert_eq!(bench.search(8, "go"), run(&[0; 8]));
    assert_eq!(bench.search(7, "go"), NONE);
    // 11 before 26, 1 before 11; 26 before what the state gives.
    assert_eq!(Bench::new().search(0, "go"), Found::refusal(11));
    let mut bench = Bench::of("A[]={go,1*(1/0)};A[];");
    assert_eq!(bench.search(0, "go"), Found::refusal(26));
    bench.state[0] = -1;
    assert_eq!(bench.search(1, "go"), Found::refusal(11));
    for (model, state) in [(MODEL - 1, STATE), (MODEL + 1, STATE), (MODEL, STATE - 1), (MODEL, STATE + 1), (0, 0)] {
        assert_eq!(second::search(&vec![0; model], &vec![0; state], b"go", 0), Found::refusal(1));
    }
}

#[test]
fn no_process_no_run() {
    let bench = Bench::of("A[]={go,1};0*A[];");
    assert_eq!(bench.search(8, "go"), NONE);
    // A total of zero, or a draw that isn't below it, is no refusal here.
    assert_eq!(Bench::of("A[]={go,0};A[];").search(8, "go"), NONE);
}

/// The least run by length, then by entry numbers, found by lists and steps, depth first; and whether one was refused.
fn by_steps(bench: &Bench, before: &[u64], depth: usize, name: &str, met: &mut bool, best: &mut Option<Vec<u64>>) {
    if before.len() == depth {
        return;
    }
    let mut here = bench.clone();
    if here.list().number != 0 {
        *met = true;
        return;
    }
    let entries = here.entries();
    for number in 0..entries.len() {
        if entries[number][6] == 0 {
            continue;
        }
        let draw = entries[..number].iter().map(|entry| entry[6]).sum();
        let mut after = bench.clone();
        if after.step(draw).number != 0 {
            *met = true;
            continue;
        }
        let run = [before, &[number as u64]].concat();
        let read = second::model::read_buffer(&bench.model).unwrap();
        let (place, branch) = (entries[number][1] as usize, entries[number][2] as usize);
        let held = second::state::read_buffer(&read, &bench.state).unwrap();
        let action = &read.sums[held.processes[place].sum].branches[branch].action;
        if matches!(action, second::model::Action::Wait(wait) if wait == name.as_bytes()) {
            let key = |run: &Vec<u64>| (run.len(), run.clone());
            if best.as_ref().is_none_or(|best| key(&run) < key(best)) {
                *best = Some(run.clone());
            }
        }
        by_steps(&after, &run, depth, name, met, best);
    }
}

/// What a search is to answer, by lists and steps alone.
fn expected(bench: &Bench, depth: usize, name: &str) -> Found {
    let (mut met, mut best) = (false, None);
    by_steps(bench, &[], depth, name, &mut met, &mut best);
    match (best, met) {
        (Some(entries), _) => run(&entries),
        (None, true) => Found::refusal(27),
        (None, false) => NONE,
    }
}

#[test]
fn random_models_by_lists_and_steps() {
    second::model::keep_last();
    let (mut found, mut none, mut refused) = (0, 0, 0);
    for seed in 0..80 {
        let mut random = Random::new(seed);
        let text = if seed % 3 == 0 { edge_of_kind(&mut random, 19 + seed as usize % 2) } else { lively(&mut random) };
        let mut bench = Bench::of(&String::from_utf8(text).unwrap());
        if bench.list().count > 12 {
            continue;
        }
        let (depth, name) = (1 + random.below(2), *random.pick(&["go", "tick", "n", "A", "c", "zz"]));
        let expected = expected(&bench, depth, name);
        assert_eq!(bench.search(depth as u64, name), expected, "seed {seed}");
        found += u32::from(expected.length > 0);
        none += u32::from(expected == NONE);
        refused += u32::from(expected.number == 27);
    }
    assert!(found > 10 && none > 10 && refused > 0, "{found} {none} {refused}");
}

/// Each name of a maze, at a depth with few runs: what the search answers, by lists and steps.
#[test]
fn mazes_by_lists_and_steps() {
    second::model::keep_last();
    let (mut lengths, mut refused) = ([0; 9], 0);
    for seed in 0..150 {
        let mut random = Random::new(seed);
        let text = String::from_utf8(maze(&mut random)).unwrap();
        let bench = Bench::of(&text);
        let (model, state) = second::engine::held(&bench.model, &bench.state).unwrap();
        for name in ["go", "step", "never"] {
            let few = |depth: &usize| Runs::of(&model, &state, name.as_bytes(), *depth).all.len() <= 100;
            let depth = (1..=8).take_while(few).last().unwrap_or(1);
            let expected = expected(&bench, depth, name);
            assert_eq!(bench.search(depth as u64, name), expected, "{text} {depth} {name}");
            lengths[expected.length as usize] += u32::from(expected.number == 0);
            refused += u32::from(expected.number == 27);
        }
    }
    assert!(lengths.iter().all(|&times| times > 0) && refused > 20, "{lengths:?} {refused}");
}

/// The walk has every run once, by length, then by entry numbers, and meets what the runs meet.
#[test]
fn the_walk_is_in_order() {
    second::model::keep_last();
    for seed in 0..150 {
        let mut random = Random::new(seed);
        let bench = Bench::of(&String::from_utf8(maze(&mut random)).unwrap());
        let (model, state) = second::engine::held(&bench.model, &bench.state).unwrap();
        let depth = 1 + random.below(3);
        let runs = Runs::of(&model, &state, b"go", depth);
        let mut all = runs.all.clone();
        all.sort_by_key(|run| (run.len(), run.clone()));
        let mut walk = Walk::new(model, state, depth);
        let walked: Vec<Vec<u64>> = walk.by_ref().map(|run| run.entries).collect();
        assert!(walked == all && walked.windows(2).all(|pair| pair[0] != pair[1]), "seed {seed}");
        assert_eq!(walk.meets_refusal, !runs.refusals.is_empty());
    }
}
