//! Runs of both engines take entries in proportion to their weights: Pearson's test over the events of words of a fixed
//! seed.

use compare::with_stack;
use second::generate::{Buffers, Engine, Random, SECOND};
use second::ran::{bound, EVENT};
use second::{Ran, Running, LISTING, MODEL, STATE};

const SEED: u64 = 32;
/// Steps of one call, and of all calls of the second engine and of the library.
const STEPS: usize = 1_000;
const FEW: usize = 20_000;
#[cfg(feature = "engine")]
const MANY: usize = 50_000;

/// Models that don't change with their steps, and their totals.
const MODELS: [(&str, u64); 3] = [
    // Waits of one process.
    ("A[]={a,1}.A[]+{b,2}.A[]+{c,0.25}.A[]+{d,3}.A[]+{e,0}.A[]+{f,0.5}.A[]+{g,1.5}.A[];A[];", 825_000_000),
    // Handshakes; a third of all words is turned away. Else the last one were taken a quarter less often.
    (
        "S[n]={@c![n],20000*n}.S[n];R[]={@c?[1..5],100000}.R[];\
         S[1]||S[2]||S[3]||S[4]||S[5]||S[5]||S[5]||S[5]||S[1]||R[];",
        6_200_000_000_000_000_000,
    ),
    // A fifth is. Else the first half of the draws came up half as often again as the other.
    (
        "S[n]={@c![n],10000*n}.S[n];R[]={@c?[1..9],100000}.R[];\
         S[1]||S[9]||S[2]||S[8]||S[9]||S[9]||S[9]||S[9]||S[9]||S[9]||R[];",
        7_400_000_000_000_000_000,
    ),
];

/// How often each entry, told apart by place and branch, was taken in so many steps, and how many words that took.
fn taken(engine: &Engine, text: &str, steps: usize) -> (Vec<(u64, u64)>, u64) {
    let mut random = Random::new(SEED);
    let (mut buffers, opened) = Buffers::opened(engine, text.as_bytes());
    assert_eq!(opened.number, 0, "{text}");
    let (model, state) = (&buffers.model[..MODEL], &mut buffers.state[..STATE]);
    let listed = (engine.list)(model, state, &mut buffers.listing[..LISTING]);
    let entries: Vec<&[u64]> = buffers.listing.chunks(EVENT - 1).take(listed.count as usize).collect();
    let mut met: Vec<(u64, u64)> = entries.iter().map(|entry| (entry[EVENT - 2], 0)).collect();
    let (mut words, mut events) = (0, vec![0; EVENT * STEPS]);
    for _ in 0..steps / STEPS {
        // More than enough: a step uses 1.5 words and 4.3 waiting draws in the mean.
        let lent: Vec<u64> = (0..2 * STEPS).map(|_| random.number()).collect();
        let waiting: Vec<u16> = (0..6 * STEPS).map(|_| random.number() as u16).collect();
        let (events, clock) = (&mut events, &mut buffers.clock);
        let ran =
            (engine.run)(model, Running { state, words: &lent, waiting: &waiting, events, limit: u64::MAX, clock });
        assert_eq!((ran.number, ran.steps), (0, STEPS as u64));
        words += ran.words;
        for event in events.chunks(EVENT) {
            let entry = entries.iter().position(|entry| **entry == event[1..]).expect("an entry");
            met[entry].1 += 1;
        }
    }
    (met, words)
}

/// Pearson's statistic over the entries above weight zero, the most that it may be, and how many words there were.
///
/// Of k entries it has mean k - 1 and a variance of twice that. Six deviations above the mean are passed once in
/// 4,500 seeds with the fewest entries here (6), and less often with more.
fn tried(engine: &Engine, (text, total): (&str, u64), steps: usize) -> (f64, f64, u64) {
    let (met, words) = taken(engine, text, steps);
    assert_eq!(met.iter().map(|(weight, _)| weight).sum::<u64>(), total, "{text}");
    assert!(met.iter().all(|(weight, times)| *weight > 0 || *times == 0));
    let expected = |weight: u64| steps as f64 * weight as f64 / total as f64;
    let part = |&(weight, times): &(u64, u64)| (times as f64 - expected(weight)).powi(2) / expected(weight);
    let parts: Vec<f64> = met.iter().filter(|(weight, _)| *weight > 0).map(part).collect();
    let freedom = parts.len() as f64 - 1.0;
    let (statistic, most) = (parts.iter().sum(), freedom + 6.0 * (2.0 * freedom).sqrt());
    println!("total {total}: {statistic:.1}, at most {most:.1}; {words} words for {steps} steps");
    (statistic, most, words)
}

fn in_proportion(engine: &Engine, steps: usize) {
    for (text, total) in MODELS {
        let (statistic, most, words) = tried(engine, (text, total), steps);
        assert!(statistic <= most, "total {total}");
        // Each word is used with this chance: the words of all steps lie within six deviations.
        let chance = bound(total) as f64 / 2f64.powi(64);
        let deviation = (steps as f64 * (1.0 - chance)).sqrt() / chance;
        assert!((words as f64 - steps as f64 / chance).abs() <= 6.0 * deviation, "total {total}: {words} words");
    }
}

/// A run that turns no word away: the rest alone chooses.
fn rest_alone(model: &[u8], lent: Running) -> Ran {
    let total = second::list(model, lent.state, &mut vec![0; LISTING]).total;
    let words: Vec<u64> = lent.words.iter().map(|word| word % total).collect();
    second::run(model, Running { words: &words, ..lent })
}

#[test]
fn the_rest_alone_is_told_apart() {
    with_stack(|| {
        second::model::keep_last();
        for model in &MODELS[1..] {
            let (statistic, most, _) = tried(&Engine { run: rest_alone, ..SECOND }, *model, FEW);
            assert!(statistic > most);
        }
    });
}

#[test]
fn the_second_engine_takes_entries_in_proportion() {
    with_stack(|| {
        second::model::keep_last();
        in_proportion(&SECOND, FEW);
    });
}

#[cfg(feature = "engine")]
#[test]
fn the_library_takes_entries_in_proportion() {
    with_stack(|| in_proportion(&compare::linked::ENGINE, MANY));
}
