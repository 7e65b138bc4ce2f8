//! Random models and calls on the second engine itself: it never panics, it leaves the buffers
//! as 01 says for each number, its states pass question 11, its totals are the sums of the
//! weights, and every refusal is met.

use second::generate::*;
use second::pieces::{COUNT, LENGTH, MET, START};
use second::ran::EVENT;
use second::state::{DEFINITION, FIRST_PROCESS, PROCESS};
use second::{mazes, model, saves, state, walks};
use second::{Answer, Clock, Found, Progress, Ran, LISTING, MODEL, REPORT, SAVES, SEARCH, STATE};
use std::collections::BTreeMap;

/// How many seeds to try: the number given, unless the environment has SEEDS.
fn seeds(usual: u64) -> u64 {
    std::env::var("SEEDS").ok().and_then(|number| number.parse().ok()).unwrap_or(usual)
}

/// Names the seed when a check fails.
struct Named(u64);

impl Drop for Named {
    fn drop(&mut self) {
        if std::thread::panicking() {
            eprintln!("seed {}", self.0);
        }
    }
}

/// Checks what can be told of a call from its answer and the buffers before and after it.
fn check(call: &Call, before: &Buffers, given: &Given, after: &Buffers) {
    let answer = match given {
        Given::Answer(answer) => answer,
        Given::Found(_) => return check_search(call, before, given, after),
        Given::Ran(ran) => return check_run(call, before, ran, after),
        Given::Progress(progress) => return check_progress(call, before, progress, after),
    };
    let number = answer.number;
    assert!(number == 12 || answer.branch == 0);
    assert!(number == 0 || answer.chosen == 0);
    assert_eq!(number == 1, call.lengths() != Some(&RIGHT));
    if number == 1 {
        assert!(before == after && *answer == Answer::refusal(1));
        return;
    }
    match call {
        Call::Open { text, .. } | Call::Steady { text, .. } => check_opening(call, text, before, answer, after),
        Call::List { .. } | Call::Report { .. } => {
            assert!([0, 11, 12, 13, 14].contains(&number));
            assert!(before.state == after.state);
            assert_eq!(answer.chosen, 0);
            check_shown(call, before, answer, after);
        }
        Call::Step { .. } => {
            assert!(number == 0 || (11..=19).contains(&number));
            assert!(before.state == after.state || number == 0);
            check_shown(call, before, answer, after);
        }
        Call::Timed { draw, waiting, .. } => {
            assert!(number == 0 || (11..=19).contains(&number) || (23..=25).contains(&number));
            assert!((before.state == after.state && before.clock == after.clock) || number == 0);
            check_shown(call, before, answer, after);
            check_time(*draw, waiting, before, answer, after);
        }
        Call::Begin { .. } => {
            assert!([0, 11, 26].contains(&number) && *answer == Answer::refusal(number));
            let mut same = after.clone();
            same.search.clone_from(&before.search);
            assert!(same == *before && (number == 0 || after.search == before.search));
        }
        Call::Save { name, .. } | Call::Return { name, .. } | Call::Forget { name, .. } => {
            check_stored(call, name, before, answer, after);
        }
        _ => unreachable!("changes have no answer"),
    }
}

/// Carrying on touches the search alone, which is zeros once it ended.
fn check_progress(call: &Call, before: &Buffers, progress: &Progress, after: &Buffers) {
    let number = progress.number;
    assert_eq!(number == 1, call.lengths() != Some(&RIGHT));
    let mut same = after.clone();
    same.search.clone_from(&before.search);
    assert!(same == *before);
    match number {
        0 | 27 => {
            assert!(number == 0 || progress.ended == 1);
            assert_eq!(progress.ended == 1, all_zero(&after.search[..SEARCH]));
            assert!(progress.ended == 1 || progress.length == 0);
            assert!(progress.count >= before.search[COUNT] as u64);
            if progress.ended == 0 {
                assert_eq!(after.search[COUNT], progress.count as i64);
                assert!(after.search[MET] >= before.search[MET] && after.search[LENGTH] >= before.search[LENGTH]);
                assert!(after.search[..COUNT] == before.search[..COUNT]);
                assert!(after.search[START..] == before.search[START..]);
            }
        }
        _ => assert!([1, 11, 28].contains(&number) && *progress == Progress::refusal(number) && before == after),
    }
}

/// A search moves nothing; the run it found is one, and its last entry a wait.
fn check_search(call: &Call, before: &Buffers, given: &Given, after: &Buffers) {
    assert!(before == after);
    let Given::Found(found) = given else { unreachable!("only searches") };
    let number = found.number;
    assert_eq!(number == 1, call.lengths() != Some(&RIGHT));
    assert!([0, 1, 11, 26, 27].contains(&number) && (number == 0 || *found == Found::refusal(number)));
    let length = found.length as usize;
    assert!(length <= 8 && all_zero(&found.run[length..]));
    let mut buffers = before.clone();
    for (place, &entry) in found.run[..length].iter().enumerate() {
        let listed = *buffers.make(&SECOND, &Call::List { lengths: RIGHT }).unwrap().answer().unwrap();
        let weights: Vec<u64> = buffers.listing[..7 * listed.count as usize].chunks(7).map(|row| row[6]).collect();
        assert!(weights[entry as usize] > 0);
        assert!(place + 1 < length || buffers.listing[7 * entry as usize] == 1);
        let draw = Draw::Exactly(weights[..entry as usize].iter().sum());
        let taken = buffers.make(&SECOND, &Call::Step { lengths: RIGHT, draw }).unwrap();
        assert_eq!((taken.number(), taken.answer().unwrap().chosen), (0, entry));
    }
}

/// A run: what its numbers, its events and the buffers say of one another.
fn check_run(call: &Call, before: &Buffers, ran: &Ran, after: &Buffers) {
    let Call::Run { lengths, words, waiting, limit } = call else { unreachable!("only runs") };
    let Ran { number, steps, .. } = *ran;
    assert_eq!(number == 1, (lengths.model, lengths.state) != (MODEL, STATE));
    let judged = number != 1 && holds_a_state(before) && before.clock.is_in_range();
    assert!(number == 1 || (number == 11) != judged);
    if [1, 11].contains(&number) {
        assert!(*ran == Ran::refusal(number) && before == after);
        return;
    }
    assert!([0, 12, 13, 14, 15, 17, 18, 19, 23, 24, 25].contains(&number));
    let room = (lengths.events / EVENT) as u64;
    assert!(steps <= *limit && steps <= room && (number == 0 || (steps < *limit && steps < room)));
    assert!(steps <= ran.words && ran.words <= words.len() as u64 && ran.waiting <= waiting.len() as u64);
    assert_eq!(after.clock.draws - before.clock.draws, ran.waiting);
    assert_eq!(ran.total == 0, [12, 13, 14, 15].contains(&number) || *limit == 0 || room == 0);
    assert!(ran.count > 0 || ran.total == 0);
    let (events, left) = after.events.split_at(EVENT * steps as usize);
    assert!(left == &before.events[events.len()..]);
    let mut rest = before.clone();
    rest.events[..events.len()].copy_from_slice(events);
    (rest.state, rest.clock) = (after.state.clone(), after.clock);
    assert!(rest == *after && holds_a_state(after));
    assert!(steps > 0 || (before.state == after.state && before.clock == after.clock));
    // Each event's entry is one of its state's listing; taken one by one they lead to the same state.
    let mut taken = before.clone();
    let mut ticks = before.clock.ticks;
    for event in events.chunks(EVENT) {
        let listed = *taken.make(&SECOND, &Call::List { lengths: RIGHT }).unwrap().answer().unwrap();
        let entries: Vec<&[u64]> = taken.listing[..7 * listed.count as usize].chunks(7).collect();
        let chosen = entries.iter().position(|entry| entry == &&event[1..]).expect("a listed entry");
        let draw = Draw::Exactly(entries[..chosen].iter().map(|entry| entry[6]).sum());
        assert!(event[7] > 0 && event[0] >= ticks);
        ticks = event[0];
        assert_eq!(taken.make(&SECOND, &Call::Step { lengths: RIGHT, draw }).unwrap().number(), 0);
    }
    assert!(taken.state == after.state && ticks == after.clock.ticks);
}

fn check_opening(call: &Call, text: &[u8], before: &Buffers, answer: &Answer, after: &Buffers) {
    assert!(answer.number <= 10 || (answer.number == 29 && call.name() == "steady"));
    assert_eq!((answer.count, answer.total, answer.chosen), (0, 0, 0));
    assert!(before.listing == after.listing && before.report == after.report);
    assert!(all_zero(&after.saves[..SAVES]) && after.clock == Clock::default());
    assert!(all_zero(&after.search[..SEARCH]));
    if answer.number > 1 {
        assert!(answer.place as usize <= text.len());
        assert!(after.model[..MODEL].iter().all(|&byte| byte == 0));
        assert!(all_zero(&after.state[..STATE]));
    } else {
        assert_eq!(answer.place, 0);
        assert!(holds_a_state(after));
        assert_eq!(&after.model[2..2 + text.len()], text);
    }
}

/// A timed step: one that isn't refused for its draws or its clock is a step with the same choosing draw.
fn check_time(draw: Draw, waiting: &[u16], before: &Buffers, answer: &Answer, after: &Buffers) {
    let mut plain = before.clone();
    let step = *plain.make(&SECOND, &Call::Step { lengths: RIGHT, draw }).unwrap().answer().unwrap();
    match answer.number {
        23..=25 => assert_eq!((step.number, answer.chosen), (0, 0)),
        0 => {
            assert_eq!(step, *answer);
            assert!(plain.state == after.state && plain.listing == after.listing);
            let used = after.clock.draws - before.clock.draws;
            assert!((2..=waiting.len() as u64).contains(&used));
        }
        number => assert_eq!(number == 11 || step.number == number, number == 11 || step == *answer),
    }
}

/// A save, a return or a forget whose buffers have their lengths.
fn check_stored(call: &Call, name: &[u8], before: &Buffers, answer: &Answer, after: &Buffers) {
    assert_eq!(*answer, Answer::refusal(answer.number));
    let (returns, saves) = (matches!(call, Call::Return { .. }), matches!(call, Call::Save { .. }));
    assert!(before.model == after.model && before.listing == after.listing && before.report == after.report);
    assert!(before.state == after.state || (answer.number == 0 && returns));
    assert!(before.saves == after.saves || (answer.number == 0 && !returns));
    assert!(before.clock == after.clock || (answer.number == 0 && returns));
    let known = |buffers: &Buffers| held_state(buffers, name).is_some();
    match answer.number {
        0 => {
            assert!(saves || known(before));
            assert_eq!(known(after), !matches!(call, Call::Forget { .. }));
            if saves {
                assert_eq!(held_state(after, name), Some(after.state[..STATE].to_vec()));
            } else if returns {
                assert_eq!(held_state(before, name), Some(after.state[..STATE].to_vec()));
            }
        }
        20 => assert!(name.is_empty() || name.len() > 16 || !name.iter().all(u8::is_ascii_alphabetic)),
        21 => assert!(!saves && !known(before)),
        22 => assert!(saves && !known(before) && (0..8).all(|place| before.saves[place * saves::PLACE] != 0)),
        number => assert_eq!(number, 11),
    }
}

/// The state's numbers under a name, read off the buffer.
fn held_state(buffers: &Buffers, name: &[u8]) -> Option<Vec<i64>> {
    let mut places = buffers.saves[..SAVES].chunks(saves::PLACE);
    let place = places.find(|place| name.len() <= 16 && !name.is_empty() && place[..2] == saves::pack(name))?;
    Some(place[saves::NAME..saves::CLOCK].to_vec())
}

/// A list, step or report whose buffers have their lengths: the listing, or of a report the report, is filled, zeroed
/// or left, the other is left.
fn check_shown(call: &Call, before: &Buffers, answer: &Answer, after: &Buffers) {
    let number = answer.number;
    let report = call.name() == "report";
    assert!(before.model == after.model);
    assert!(if report { before.listing == after.listing } else { before.report == after.report });
    let judged = holds_a_state(before) && (call.name() != "timed" || before.clock.is_in_range());
    assert_eq!(number == 11, !judged);
    assert!(number == 12 || answer.place == 0);
    match number {
        11 => assert!(before == after),
        12..=14 => assert!(all_zero(if report { &after.report[..REPORT] } else { &after.listing[..LISTING] })),
        _ => {
            assert!(holds_a_state(after));
            if report {
                check_report(&after.report[..REPORT], answer, before);
            } else {
                check_listing(&after.listing[..LISTING], answer, before);
            }
            return;
        }
    }
    assert_eq!((answer.count, answer.total), (0, 0));
}

fn all_zero<T: PartialEq + Default>(numbers: &[T]) -> bool {
    numbers.iter().all(|number| *number == T::default())
}

/// The weights of a listing of the same state, each added where the state has its process's definition.
fn check_report(report: &[u64], answer: &Answer, before: &Buffers) {
    let mut listing = vec![0; LISTING];
    let listed = second::list(&before.model[..MODEL], &before.state[..STATE], &mut listing);
    assert_eq!(listed, *answer);
    let mut subtotals = vec![0; REPORT];
    for entry in listing.chunks(7).take(listed.count as usize) {
        let process = FIRST_PROCESS + PROCESS * entry[1] as usize;
        subtotals[before.state[process + DEFINITION] as usize] += entry[6];
    }
    assert_eq!(report, subtotals);
    assert_eq!(report.iter().sum::<u64>(), answer.total);
}

fn holds_a_state(buffers: &Buffers) -> bool {
    let model = model::read_buffer(&buffers.model[..MODEL]);
    model.is_some_and(|model| state::read_buffer(&model, &buffers.state[..STATE]).is_some())
}

/// As many entries as counted, in order, of known kinds, with weights that sum up to the total.
fn check_listing(listing: &[u64], answer: &Answer, before: &Buffers) {
    let (filled, rest) = listing.split_at(answer.count as usize * 7);
    assert!(rest.iter().all(|&number| number == 0));
    let entries: Vec<&[u64]> = filled.chunks(7).collect();
    let total: u128 = entries.iter().map(|entry| u128::from(entry[6])).sum();
    assert_eq!(total, u128::from(answer.total));
    assert!(answer.total <= 9_000_000_000_000_000_000);
    if answer.number == 0 || answer.number >= 17 {
        assert!(answer.chosen == 0 || answer.chosen < answer.count);
    }
    for pair in entries.windows(2) {
        let order = |entry: &[u64]| (entry[1], entry[2], entry[5], entry[3], entry[4]);
        assert!(order(pair[0]) < order(pair[1]));
    }
    for entry in entries {
        assert!((1..=7).contains(&entry[0]));
        assert!(entry[1] < before.state[0] as u64 && entry[2] < 16);
        if entry[0] == 7 {
            assert!(entry[3] < before.state[0] as u64 && entry[3] != entry[1] && entry[5] == 0);
        } else {
            assert_eq!((entry[3], entry[4]), (0, 0));
        }
        if entry[0] == 5 {
            assert!(entry[5] < before.state[1] as u64);
        } else {
            assert_eq!(entry[5], 0);
        }
    }
}

#[test]
fn calls_of_all_kinds() {
    let mut met: BTreeMap<(&str, u64), usize> = BTreeMap::new();
    let mut numbers: BTreeMap<u64, usize> = BTreeMap::new();
    let mut kinds = [0usize; 8];
    model::keep_last();
    for seed in 0..seeds(300) {
        let _named = Named(seed);
        let mut random = Random::new(seed);
        let mut buffers = Buffers::default();
        // Every tenth list goes through all limits, every tenth is mostly of saves, one of searches, one of searches in
        // pieces and one of runs.
        let list = match seed % 10 {
            9 => edge_calls(&mut random),
            8 => stored_calls(&mut random, 60),
            7 => mazes::searches(&mut random),
            6 => walks::walks(&mut random, seed as usize / 10),
            5 if seed % 20 == 5 => searched_calls(&mut random, 60),
            5 => mazes::in_pieces(&mut random),
            _ => calls(&mut random, 40),
        };
        for call in list {
            if buffers.walks_many(&call) {
                continue;
            }
            let before = buffers.clone();
            let name = call.name();
            if let Some(given) = buffers.make(&SECOND, &call) {
                check(&call, &before, &given, &buffers);
                *met.entry((name, given.number())).or_default() += 1;
                *numbers.entry(given.number()).or_default() += 1;
                if name == "step" && given.number() == 0 {
                    kinds[buffers.listing[given.answer().unwrap().chosen as usize * 7] as usize] += 1;
                }
            }
        }
    }
    println!("answers met:");
    for ((name, number), times) in &met {
        println!("  {name} {number}: {times}");
    }
    println!("kinds of accepted steps: {:?}", &kinds[1..]);
    for number in 0..=29 {
        assert!(numbers.contains_key(&number), "{number} is never met");
    }
    for number in [0, 1, 11, 12, 13, 14] {
        assert!(met.contains_key(&("report", number)), "report {number} is never met");
    }
    for (name, numbers) in
        [("save", [0, 1, 11, 20, 22]), ("return", [0, 1, 11, 20, 21]), ("forget", [0, 1, 11, 20, 21])]
    {
        for number in numbers {
            assert!(met.contains_key(&(name, number)), "{name} {number} is never met");
        }
    }
    for number in [0, 1, 11, 12, 13, 14, 15, 17, 18, 19, 23, 24, 25] {
        assert!(met.contains_key(&("run", number)), "run {number} is never met");
    }
    assert!(kinds[1..].iter().all(|&times| times > 0));
}

#[test]
fn lively_models_are_legal_and_live() {
    let mut steps = 0;
    let mut ends: BTreeMap<u64, usize> = BTreeMap::new();
    let mut kinds = [0usize; 8];
    let models = seeds(100);
    for seed in 0..models {
        let _named = Named(seed);
        let text = lively(&mut Random::new(seed));
        let mut buffers = Buffers::default();
        let opened = buffers.make(&SECOND, &Call::Open { text: text.clone(), lengths: RIGHT });
        assert_eq!(opened, Some(Answer::default().into()), "{}", String::from_utf8_lossy(&text));
        let mut random = Random::new(seed);
        let mut end = 0;
        for _ in 0..100 {
            let draw = Draw::Inside(random.number());
            let answer = *buffers.make(&SECOND, &Call::Step { lengths: RIGHT, draw }).unwrap().answer().unwrap();
            if answer.number != 0 {
                end = answer.number;
                break;
            }
            steps += 1;
            kinds[buffers.listing[answer.chosen as usize * 7] as usize] += 1;
        }
        *ends.entry(end).or_default() += 1;
    }
    println!("{models} lively models, at most 100 steps each: {steps} steps; ends {ends:?}; kinds {:?}", &kinds[1..]);
    assert!(steps > models * 40);
}

#[test]
fn the_same_seed_gives_the_same() {
    let text = |seed| some_text(&mut Random::new(seed));
    for seed in 0..50 {
        assert_eq!(text(seed), text(seed));
    }
    let different: std::collections::BTreeSet<Vec<u8>> = (0..50).map(text).collect();
    assert!(different.len() > 40);
}
