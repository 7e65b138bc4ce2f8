//! Wrong engines, each the second engine with one fault: every fault is found and shrunk, and
//! its script shows it again.

use compare::compare::Place;
use compare::met::Met;
use compare::orders::{self, Tried};
use compare::{compare as core, lists, with_stack};
use second::generate::{Engine, SECOND};
use second::limits::HIGHEST;
use second::runs::Runs;
use second::script::{self, Form, Line};
use second::state::{DEFINITION, FIRST_PAIR, FIRST_PROCESS, FIRST_VALUE, PAIR, PROCESS, VALUE_COUNT};
use second::{
    begin, carry_on, engine, forget, list, open, open_steady, pieces, ran, report, return_to, run, save, saves, search,
    step, timed_step, Answer, Clock, Found, Opening, Progress, Ran, Running, LISTING, SAVES, SEARCH, STATE,
};

const ENTRY: usize = 7;

/// A fault that shows on few lists is looked for in more than the other tests make.
const LISTS: u64 = 3 * lists::LISTS;
/// How many of the lists on which a fault shows are shrunk, at most, until one is short enough.
const SHRUNK: usize = 4;

/// Finds and shrinks the fault, and holds its script to these lengths.
fn found(wrong: Engine, place: Place, calls: usize, bytes: usize) {
    with_stack(move || {
        let mut seed = 0;
        for _ in 0..SHRUNK {
            let Err(report) = lists::run(&wrong, &SECOND, seed..LISTS, &mut Met::default()) else { break };
            shows_it_again(&wrong, &report);
            let short = report.difference.made.len() <= calls && report.script.len() <= bytes;
            if short && report.difference.place == place {
                return;
            }
            println!("{} calls, {} bytes, {:?}", report.difference.made.len(), report.script.len(), report.difference);
            seed = report.seed.map_or(0, |seed| seed + 1);
        }
        panic!("none was short enough");
    })
}

/// The script of a difference has it again.
fn shows_it_again(wrong: &Engine, report: &lists::Report) {
    let (lines, bad) = script::read(&report.script, Form::Marked);
    assert_eq!(bad, None);
    let again: Vec<_> = lines.into_iter().filter_map(call).collect();
    let difference = core::run(wrong, &SECOND, &again, &mut Met::default()).unwrap_err();
    assert_eq!(difference.what, report.difference.what);
}

fn call(line: Line) -> Option<second::generate::Call> {
    match line {
        Line::Call(call) => Some(call),
        _ => None,
    }
}

#[test]
fn a_place_of_a_refused_text_that_is_one_too_high() {
    fn wrong(text: &[u8], lent: Opening) -> Answer {
        let mut answer = open(text, lent);
        answer.place += u64::from(answer.number == 5);
        answer
    }
    found(Engine { open: wrong, ..SECOND }, Place::Answer, 1, 20);
}

#[test]
fn a_total_that_is_not_the_sum() {
    fn wrong(model: &[u8], state: &[i64], listing: &mut [u64]) -> Answer {
        let mut answer = list(model, state, listing);
        answer.total += u64::from(answer.count > 2);
        answer
    }
    found(Engine { list: wrong, ..SECOND }, Place::Answer, 3, 80);
}

#[test]
fn an_entry_that_is_listed_twice() {
    fn wrong(model: &[u8], state: &[i64], listing: &mut [u64]) -> Answer {
        let mut answer = list(model, state, listing);
        if answer.number == 0 && (2..1_000).contains(&answer.count) && listing[0] == 7 {
            listing.copy_within(..LISTING - ENTRY, ENTRY);
            answer.count += 1;
            answer.total += listing[ENTRY - 1];
        }
        answer
    }
    found(Engine { list: wrong, ..SECOND }, Place::Answer, 2, 120);
}

#[test]
fn two_entries_in_the_wrong_order() {
    fn wrong(model: &[u8], state: &[i64], listing: &mut [u64]) -> Answer {
        let answer = list(model, state, listing);
        if answer.number == 0 && answer.count == 2 {
            listing[..2 * ENTRY].rotate_left(ENTRY);
        }
        answer
    }
    found(Engine { list: wrong, ..SECOND }, Place::Listing, 2, 80);
}

#[test]
fn a_state_number_that_is_changed_after_a_step() {
    fn wrong(model: &[u8], state: &mut [i64], listing: &mut [u64], draw: u64) -> Answer {
        let answer = step(model, state, listing, draw);
        if answer.number == 0 && answer.chosen > 0 && state[0] > 1 {
            state[FIRST_PROCESS + PROCESS] ^= 1;
        }
        answer
    }
    found(Engine { step: wrong, ..SECOND }, Place::State, 2, 120);
}

#[test]
fn a_process_that_is_left_past_the_last() {
    fn wrong(model: &[u8], state: &mut [i64], listing: &mut [u64], draw: u64) -> Answer {
        let before = state.to_vec();
        let answer = step(model, state, listing, draw);
        if answer.number == 0 && state[0] < before[0] {
            let past = FIRST_PROCESS + PROCESS * state[0] as usize;
            state[past..past + PROCESS].copy_from_slice(&before[past..past + PROCESS]);
        }
        answer
    }
    found(Engine { step: wrong, ..SECOND }, Place::State, 3, 120);
}

#[test]
fn a_pair_that_is_left_after_a_kill() {
    fn wrong(model: &[u8], state: &mut [i64], listing: &mut [u64], draw: u64) -> Answer {
        let before = state.to_vec();
        let answer = step(model, state, listing, draw);
        if answer.number == 0 && state[1] < before[1] {
            state[FIRST_PAIR + FIRST_VALUE] = before[FIRST_PAIR + FIRST_VALUE];
        }
        answer
    }
    found(Engine { step: wrong, ..SECOND }, Place::State, 5, 160);
}

#[test]
fn a_refused_step_that_clears_the_listing() {
    fn wrong(model: &[u8], state: &mut [i64], listing: &mut [u64], draw: u64) -> Answer {
        let answer = step(model, state, listing, draw);
        if answer.number == 16 {
            listing.fill(0);
        }
        answer
    }
    found(Engine { step: wrong, ..SECOND }, Place::Listing, 2, 80);
}

#[test]
fn a_refused_listing_that_clears_what_was_lent() {
    fn wrong(model: &[u8], state: &[i64], listing: &mut [u64]) -> Answer {
        let answer = list(model, state, listing);
        if answer.number == 11 {
            listing.fill(0);
        }
        answer
    }
    found(Engine { list: wrong, ..SECOND }, Place::Listing, 5, 120);
}

#[test]
fn a_refused_text_that_leaves_the_old_state() {
    fn wrong(text: &[u8], mut lent: Opening) -> Answer {
        let before = lent.state.to_vec();
        let answer = open(text, lent.again());
        if answer.number > 1 {
            lent.state.copy_from_slice(&before);
        }
        answer
    }
    found(Engine { open: wrong, ..SECOND }, Place::State, 2, 80);
}

#[test]
fn an_opening_that_leaves_old_pairs() {
    fn wrong(text: &[u8], mut lent: Opening) -> Answer {
        let before = lent.state.to_vec();
        let answer = open(text, lent.again());
        if answer.number == 0 {
            lent.state[1] = before[1];
            lent.state[FIRST_PAIR..].copy_from_slice(&before[FIRST_PAIR..]);
        }
        answer
    }
    found(Engine { open: wrong, ..SECOND }, Place::State, 3, 100);
}

#[test]
fn a_step_with_wrong_lengths_that_is_taken() {
    fn wrong(model: &[u8], state: &mut [i64], listing: &mut [u64], draw: u64) -> Answer {
        if listing.len() > LISTING {
            return step(model, state, &mut listing[..LISTING], draw);
        }
        step(model, state, listing, draw)
    }
    found(Engine { step: wrong, ..SECOND }, Place::Answer, 1, 80);
}

#[test]
fn a_fifteen_that_is_given_early() {
    fn wrong(model: &[u8], state: &mut [i64], listing: &mut [u64], draw: u64) -> Answer {
        let before = state.to_vec();
        let answer = step(model, state, listing, draw);
        if answer.number == 0 && answer.count == 1 {
            state.copy_from_slice(&before);
            return Answer { total: 0, ..Answer { number: 15, chosen: 0, ..answer } };
        }
        answer
    }
    found(Engine { step: wrong, ..SECOND }, Place::Answer, 2, 80);
}

#[test]
fn a_listing_from_the_state_after_the_step() {
    fn wrong(model: &[u8], state: &mut [i64], listing: &mut [u64], draw: u64) -> Answer {
        let answer = step(model, state, listing, draw);
        if answer.number == 0 {
            list(model, state, listing);
        }
        answer
    }
    found(Engine { step: wrong, ..SECOND }, Place::Listing, 2, 120);
}

#[test]
fn senders_that_are_paired_with_earlier_processes_only() {
    fn wrong(model: &[u8], state: &[i64], listing: &mut [u64]) -> Answer {
        let mut answer = list(model, state, listing);
        let later = |entry: &&[u64]| entry[0] == 7 && entry[3] > entry[1];
        let left: Vec<u64> = listing.chunks(ENTRY).filter(|entry| !later(entry)).flatten().copied().collect();
        if answer.number == 0 {
            answer.count -= ((listing.len() - left.len()) / ENTRY) as u64;
            listing.fill(0);
            listing[..left.len()].copy_from_slice(&left);
            answer.total = listing.chunks(ENTRY).map(|entry| entry[ENTRY - 1]).sum();
        }
        answer
    }
    found(Engine { list: wrong, ..SECOND }, Place::Answer, 2, 120);
}

#[test]
fn a_value_one_past_the_range_that_is_let_pass() {
    fn wrong(model: &[u8], state: &[i64], listing: &mut [u64]) -> Answer {
        let clamped: Vec<i64> =
            state.iter().map(|&number| if number == HIGHEST + 1 { HIGHEST } else { number }).collect();
        list(model, &clamped, listing)
    }
    found(Engine { list: wrong, ..SECOND }, Place::Answer, 5, 120);
}

#[test]
fn a_definition_number_that_is_not_judged() {
    fn wrong(model: &[u8], state: &[i64], listing: &mut [u64]) -> Answer {
        let answer = list(model, state, listing);
        let Some(read) = second::model::read_buffer(model).filter(|_| answer.number == 11) else { return answer };
        let mut mended = state.to_vec();
        for process in mended[FIRST_PROCESS..FIRST_PAIR].chunks_mut(PROCESS) {
            let sum = usize::try_from(process[0]).ok().and_then(|sum| read.sums.get(sum));
            process[DEFINITION] = sum.map_or(0, |sum| sum.definition as i64);
        }
        list(model, &mended, listing)
    }
    found(Engine { list: wrong, ..SECOND }, Place::Answer, 3, 80);
}

#[test]
fn an_unused_item_that_is_not_judged() {
    fn wrong(model: &[u8], state: &[i64], listing: &mut [u64]) -> Answer {
        let answer = list(model, state, listing);
        if answer.number != 11 {
            return answer;
        }
        let mut mended = state.to_vec();
        for pair in mended[FIRST_PAIR..].chunks_mut(PAIR) {
            let items = pair[0];
            if (1..=3).contains(&items) {
                pair[1 + 2 * items as usize..VALUE_COUNT].fill(0);
            }
        }
        list(model, &mended, listing)
    }
    found(Engine { list: wrong, ..SECOND }, Place::Answer, 8, 200);
}

#[test]
fn a_fault_at_the_comma_of_what_begins_a_channel() {
    fn wrong(text: &[u8], lent: Opening) -> Answer {
        let mut answer = open(text, lent);
        let before = &text[..text.len().min(answer.place as usize)];
        let comma = before.iter().rposition(|byte| b"{,".contains(byte)).filter(|&place| before[place] == b',');
        if let (5, Some(b'}'), Some(comma)) = (answer.number, text.get(answer.place as usize), comma) {
            answer.place = comma as u64;
        }
        answer
    }
    found(Engine { open: wrong, ..SECOND }, Place::Answer, 1, 40);
}

#[test]
fn a_report_that_counts_handshakes_for_their_receivers() {
    fn wrong(model: &[u8], state: &[i64], subtotals: &mut [u64]) -> Answer {
        let answer = report(model, state, subtotals);
        if answer.number == 0 {
            let mut listing = vec![0; LISTING];
            list(model, state, &mut listing);
            subtotals.fill(0);
            for entry in listing.chunks(ENTRY).take(answer.count as usize) {
                let place = entry[if entry[0] == 7 { 3 } else { 1 }] as usize;
                subtotals[state[FIRST_PROCESS + PROCESS * place + DEFINITION] as usize] += entry[ENTRY - 1];
            }
        }
        answer
    }
    found(Engine { report: wrong, ..SECOND }, Place::Report, 2, 120);
}

#[test]
fn a_refused_report_that_is_left() {
    fn wrong(model: &[u8], state: &[i64], subtotals: &mut [u64]) -> Answer {
        let lent = subtotals.to_vec();
        let answer = report(model, state, subtotals);
        if answer.number == 13 {
            subtotals.copy_from_slice(&lent);
        }
        answer
    }
    // The report lent must hold something.
    found(Engine { report: wrong, ..SECOND }, Place::Report, 4, 160);
}

#[test]
fn a_nineteen_for_a_pair_already_lit() {
    fn wrong(model: &[u8], state: &mut [i64], listing: &mut [u64], draw: u64) -> Answer {
        let before = state.to_vec();
        let answer = step(model, state, listing, draw);
        let launched = answer.number == 0 && listing[ENTRY * answer.chosen as usize] == 2;
        if launched && before.get(1) == Some(&256) {
            state.copy_from_slice(&before);
            return Answer { number: 19, chosen: 0, ..answer };
        }
        answer
    }
    // A state with 256 pairs has many numbers.
    found(Engine { step: wrong, ..SECOND }, Place::Answer, 256 * PAIR + 50, 60_000);
}

#[test]
fn a_refused_opening_that_keeps_the_saves() {
    fn wrong(text: &[u8], mut lent: Opening) -> Answer {
        let before = lent.saves.to_vec();
        let answer = open(text, lent.again());
        if answer.number > 1 {
            lent.saves.copy_from_slice(&before);
        }
        answer
    }
    found(Engine { open: wrong, ..SECOND }, Place::Saves, 4, 80);
}

#[test]
fn a_save_that_takes_a_free_place_for_a_known_name() {
    fn wrong(model: &[u8], state: &[i64], places: &mut [i64], name: &[u8], clock: Clock) -> Answer {
        let before = places.to_vec();
        let answer = save(model, state, places, name, clock);
        let used = |place: &[i64]| place[0] != 0;
        let known = before.chunks(saves::PLACE).position(|place| answer.number == 0 && place[..2] == saves::pack(name));
        let free = before.chunks(saves::PLACE).position(|place| !used(place));
        if let (0, Some(known), Some(free)) = (answer.number, known, free) {
            let kept = places[known * saves::PLACE..(known + 1) * saves::PLACE].to_vec();
            places[free * saves::PLACE..(free + 1) * saves::PLACE].copy_from_slice(&kept);
            places[known * saves::PLACE..(known + 1) * saves::PLACE].fill(0);
        }
        answer
    }
    found(Engine { save: wrong, ..SECOND }, Place::Saves, 3, 80);
}

#[test]
fn a_forget_that_leaves_the_state() {
    fn wrong(model: &[u8], state: &[i64], places: &mut [i64], name: &[u8]) -> Answer {
        let before = places.to_vec();
        let answer = forget(model, state, places, name);
        if let Some(place) = (0..places.len()).step_by(saves::PLACE).find(|&place| before[place] != places[place]) {
            let kept = place + saves::NAME..place + saves::CLOCK;
            places[kept.clone()].copy_from_slice(&before[kept]);
        }
        answer
    }
    found(Engine { forget: wrong, ..SECOND }, Place::Saves, 3, 80);
}

#[test]
fn a_return_that_leaves_the_pairs() {
    fn wrong(model: &[u8], state: &mut [i64], places: &[i64], name: &[u8], clock: &mut Clock) -> Answer {
        let before = state.to_vec();
        let answer = return_to(model, state, places, name, clock);
        if answer.number == 0 {
            state[1] = before[1];
            state[FIRST_PAIR..].copy_from_slice(&before[FIRST_PAIR..]);
        }
        answer
    }
    found(Engine { return_to: wrong, ..SECOND }, Place::State, 6, 160);
}

#[test]
fn a_name_twice_that_is_let_pass() {
    fn wrong(model: &[u8], state: &[i64], places: &mut [i64], name: &[u8], clock: Clock) -> Answer {
        let answer = save(model, state, places, name, clock);
        if answer.number != 11 {
            return answer;
        }
        let mut once = places.to_vec();
        for place in (saves::PLACE..SAVES).step_by(saves::PLACE) {
            if (0..place).step_by(saves::PLACE).any(|first| places[first..first + 2] == places[place..place + 2]) {
                once[place..place + saves::PLACE].fill(0);
            }
        }
        Answer { number: save(model, state, &mut once, name, clock).number, ..answer }
    }
    found(Engine { save: wrong, ..SECOND }, Place::Answer, 4, 120);
}

#[test]
fn a_draw_that_ends_a_run_and_begins_the_next() {
    fn wrong(
        model: &[u8],
        state: &mut [i64],
        listing: &mut [u64],
        waiting: &[u16],
        draw: u64,
        clock: &mut Clock,
    ) -> Answer {
        // The end of a run of two is put in once more.
        let mut longer = waiting.to_vec();
        if waiting.len() > 2 && waiting[1] < waiting[0] && waiting[2] >= waiting[1] {
            longer.insert(2, waiting[2]);
        }
        timed_step(model, state, listing, &longer, draw, clock)
    }
    // With fewest draws the other engine has none left.
    found(Engine { timed_step: wrong, ..SECOND }, Place::Answer, 2, 120);
}

#[test]
fn a_refused_timed_step_that_uses_draws() {
    fn wrong(
        model: &[u8],
        state: &mut [i64],
        listing: &mut [u64],
        waiting: &[u16],
        draw: u64,
        clock: &mut Clock,
    ) -> Answer {
        let answer = timed_step(model, state, listing, waiting, draw, clock);
        clock.draws += u64::from(answer.number == 23 && clock.draws == 0);
        answer
    }
    found(Engine { timed_step: wrong, ..SECOND }, Place::Clock, 2, 80);
}

#[test]
fn a_return_that_leaves_the_clock() {
    fn wrong(model: &[u8], state: &mut [i64], places: &[i64], name: &[u8], clock: &mut Clock) -> Answer {
        let mut other = *clock;
        return_to(model, state, places, name, &mut other)
    }
    found(Engine { return_to: wrong, ..SECOND }, Place::Clock, 5, 160);
}

#[test]
fn a_search_that_answers_a_later_run() {
    fn wrong(model: &[u8], state: &[i64], name: &[u8], depth: u64) -> Found {
        let mut found = search(model, state, name, depth);
        // Another entry of the same listing that is a wait by that name, too.
        let mut listing = vec![0; LISTING];
        if found.length == 1 && list(model, state, &mut listing).number == 0 {
            let first = found.run[0] as usize * ENTRY;
            let like = |entry: &[u64]| entry[0] == 1 && entry[2] == listing[first + 2] && entry[ENTRY - 1] > 0;
            let sum = |entry: &[u64]| state[FIRST_PROCESS + PROCESS * entry[1] as usize];
            let same = |entry: &[u64]| like(entry) && sum(entry) == sum(&listing[first..first + ENTRY]);
            let last = listing.chunks(ENTRY).rposition(same).expect("the one found");
            found.run[0] = last as u64;
        }
        found
    }
    found(Engine { search: wrong, ..SECOND }, Place::Answer, 3, 120);
}

#[test]
fn a_none_in_place_of_a_twenty_seven() {
    fn wrong(model: &[u8], state: &[i64], name: &[u8], depth: u64) -> Found {
        let found = search(model, state, name, depth);
        Found { number: if found.number == 27 { 0 } else { found.number }, ..found }
    }
    found(Engine { search: wrong, ..SECOND }, Place::Answer, 3, 120);
}

/// The runs of an accepted search.
fn runs(model: &[u8], state: &[i64], name: &[u8], depth: u64) -> Runs {
    let (model, state) = engine::held(model, state).expect("an accepted search");
    Runs::of(&model, &state, name, depth as usize)
}

#[test]
fn a_search_that_answers_the_least_numbers_first() {
    fn wrong(model: &[u8], state: &[i64], name: &[u8], depth: u64) -> Found {
        let found = search(model, state, name, depth);
        if found.length == 0 {
            return found;
        }
        Found::run(runs(model, state, name, depth).performing.iter().min().expect("the one found"))
    }
    found(Engine { search: wrong, ..SECOND }, Place::Answer, 3, 400);
}

#[test]
fn a_twenty_seven_in_place_of_a_run() {
    fn wrong(model: &[u8], state: &[i64], name: &[u8], depth: u64) -> Found {
        let found = search(model, state, name, depth);
        if found.length > 0 && !runs(model, state, name, depth).refusals.is_empty() {
            return Found::refusal(27);
        }
        found
    }
    found(Engine { search: wrong, ..SECOND }, Place::Answer, 3, 400);
}

#[test]
fn a_search_that_looks_at_sixteen_letters_alone() {
    fn wrong(model: &[u8], state: &[i64], name: &[u8], depth: u64) -> Found {
        search(model, state, &name[..name.len().min(16)], depth)
    }
    found(Engine { search: wrong, ..SECOND }, Place::Answer, 2, 100);
}

#[test]
fn a_depth_of_nine() {
    fn wrong(model: &[u8], state: &[i64], name: &[u8], depth: u64) -> Found {
        search(model, state, name, if depth == 9 { 8 } else { depth })
    }
    found(Engine { search: wrong, ..SECOND }, Place::Answer, 2, 60);
}

#[test]
fn a_search_that_says_too_late_that_it_ended() {
    fn wrong(model: &[u8], state: &[i64], under_way: &mut [i64], number: u64) -> Progress {
        let before = under_way.to_vec();
        let progress = carry_on(model, state, under_way, number);
        let last = progress.ended == 1 && progress.length == 0 && progress.number == 0;
        if last && progress.count == before[pieces::COUNT] as u64 + number {
            under_way.copy_from_slice(&before);
            return Progress { ended: 0, ..progress };
        }
        progress
    }
    found(Engine { carry_on: wrong, ..SECOND }, Place::Answer, 3, 60);
}

#[test]
fn a_search_that_follows_the_present_state() {
    fn wrong(model: &[u8], state: &[i64], under_way: &mut [i64], number: u64) -> Progress {
        let begun = under_way.len() == SEARCH && under_way[pieces::DEPTH_PLACE] > 0 && under_way[pieces::COUNT] == 0;
        if begun && state.len() == STATE {
            under_way[pieces::START..].copy_from_slice(state);
        }
        carry_on(model, state, under_way, number)
    }
    found(Engine { carry_on: wrong, ..SECOND }, Place::Answer, 4, 90);
    // Its answer alone.
    fn answers(model: &[u8], state: &[i64], under_way: &mut [i64], number: u64) -> Progress {
        let before = under_way.to_vec();
        let progress = carry_on(model, state, under_way, number);
        if progress.ended == 0 {
            return progress;
        }
        let mut other = before;
        other[pieces::START..].copy_from_slice(state);
        match carry_on(model, state, &mut other, number) {
            now if now.ended == 1 => now,
            _ => progress,
        }
    }
    found(Engine { carry_on: answers, ..SECOND }, Place::Answer, 4, 120);
}

#[test]
fn a_search_carried_on_by_nothing_that_walks() {
    fn wrong(model: &[u8], state: &[i64], under_way: &mut [i64], number: u64) -> Progress {
        carry_on(model, state, under_way, number.max(1))
    }
    found(Engine { carry_on: wrong, ..SECOND }, Place::Answer, 3, 60);
}

#[test]
fn a_search_that_begins_where_one_is_under_way_and_leaves_it() {
    fn wrong(model: &[u8], state: &[i64], under_way: &mut [i64], name: &[u8], depth: u64) -> Answer {
        let before = under_way.to_vec();
        let answer = begin(model, state, under_way, name, depth);
        if before.iter().any(|&number| number != 0) {
            under_way.copy_from_slice(&before);
        }
        answer
    }
    found(Engine { begin: wrong, ..SECOND }, Place::Search, 3, 60);
}

#[test]
fn a_search_that_is_refused_one_run_too_late() {
    fn wrong(model: &[u8], state: &[i64], under_way: &mut [i64], number: u64) -> Progress {
        let progress = carry_on(model, state, under_way, number);
        if progress.number == 28 && number == pieces::COUNTED {
            return carry_on(model, state, under_way, number - 1);
        }
        progress
    }
    found(Engine { carry_on: wrong, ..SECOND }, Place::Answer, 4, 100);
}

/// A search that is carried on as the second engine does where this stands in its buffer in the place of what is judged.
fn carried_over(place: usize, number: i64, lent: (&[u8], &[i64], &mut [i64]), by: u64) -> Progress {
    let (model, state, under_way) = lent;
    let held = std::mem::replace(&mut under_way[place], number);
    let progress = carry_on(model, state, under_way, by);
    if progress.number != 0 || by == 0 {
        under_way[place] = held;
    }
    progress
}

#[test]
fn a_search_whose_depth_is_not_judged() {
    fn wrong(model: &[u8], state: &[i64], under_way: &mut [i64], number: u64) -> Progress {
        if under_way.len() == SEARCH && under_way[pieces::DEPTH_PLACE] > 8 {
            return carried_over(pieces::DEPTH_PLACE, 8, (model, state, under_way), number);
        }
        carry_on(model, state, under_way, number)
    }
    found(Engine { carry_on: wrong, ..SECOND }, Place::Answer, 4, 120);
}

#[test]
fn a_search_whose_wait_is_not_judged() {
    fn wrong(model: &[u8], state: &[i64], under_way: &mut [i64], number: u64) -> Progress {
        let mut other = under_way.to_vec();
        if under_way.len() == SEARCH && carry_on(model, state, &mut other, number).number == 11 {
            return carried_over(pieces::WAIT, 0, (model, state, under_way), number);
        }
        carry_on(model, state, under_way, number)
    }
    found(Engine { carry_on: wrong, ..SECOND }, Place::Answer, 4, 120);
}

#[test]
fn a_search_whose_count_is_not_judged() {
    fn wrong(model: &[u8], state: &[i64], under_way: &mut [i64], number: u64) -> Progress {
        if under_way.len() == SEARCH && under_way[pieces::COUNT] > pieces::COUNTED as i64 {
            return carried_over(pieces::COUNT, pieces::COUNTED as i64, (model, state, under_way), number);
        }
        carry_on(model, state, under_way, number)
    }
    found(Engine { carry_on: wrong, ..SECOND }, Place::Answer, 5, 120);
}

#[test]
fn a_search_whose_run_is_not_walked_again() {
    fn wrong(model: &[u8], state: &[i64], under_way: &mut [i64], number: u64) -> Progress {
        let progress = carry_on(model, state, under_way, number);
        if progress.number != 11 || number > 0 {
            return progress;
        }
        let mut other = under_way.to_vec();
        if other.len() == SEARCH {
            other[pieces::LENGTH..pieces::START].fill(0);
        }
        carry_on(model, state, &mut other, number)
    }
    found(Engine { carry_on: wrong, ..SECOND }, Place::Answer, 6, 150);
}

#[test]
fn a_search_with_a_run_where_nothing_was_walked() {
    fn wrong(model: &[u8], state: &[i64], under_way: &mut [i64], number: u64) -> Progress {
        if under_way.len() == SEARCH && under_way[pieces::COUNT] == 0 && under_way[pieces::LENGTH] > 0 {
            return carried_over(pieces::COUNT, 1, (model, state, under_way), number);
        }
        carry_on(model, state, under_way, number)
    }
    found(Engine { carry_on: wrong, ..SECOND }, Place::Answer, 6, 150);
}

#[test]
fn a_beginning_that_does_not_judge_the_search() {
    fn wrong(model: &[u8], state: &[i64], under_way: &mut [i64], name: &[u8], depth: u64) -> Answer {
        let mut other = vec![0; under_way.len()];
        let answer = begin(model, state, &mut other, name, depth);
        if answer.number == 0 {
            under_way.copy_from_slice(&other);
        }
        answer
    }
    found(Engine { begin: wrong, ..SECOND }, Place::Answer, 3, 100);
}

#[test]
fn a_beginning_that_leaves_the_run() {
    fn wrong(model: &[u8], state: &[i64], under_way: &mut [i64], name: &[u8], depth: u64) -> Answer {
        let before = under_way.to_vec();
        let answer = begin(model, state, under_way, name, depth);
        if answer.number == 0 {
            under_way[pieces::RUN..pieces::START].copy_from_slice(&before[pieces::RUN..pieces::START]);
        }
        answer
    }
    found(Engine { begin: wrong, ..SECOND }, Place::Search, 4, 120);
}

#[test]
fn a_beginning_that_counts_on() {
    fn wrong(model: &[u8], state: &[i64], under_way: &mut [i64], name: &[u8], depth: u64) -> Answer {
        let before = under_way.to_vec();
        let answer = begin(model, state, under_way, name, depth);
        if answer.number == 0 {
            under_way[pieces::COUNT] = before[pieces::COUNT];
        }
        answer
    }
    found(Engine { begin: wrong, ..SECOND }, Place::Search, 4, 120);
}

#[test]
fn a_search_that_is_under_way_after_its_end() {
    fn wrong(model: &[u8], state: &[i64], under_way: &mut [i64], number: u64) -> Progress {
        let before = under_way.to_vec();
        let progress = carry_on(model, state, under_way, number);
        if progress.ended == 1 {
            under_way.copy_from_slice(&before);
        }
        progress
    }
    found(Engine { carry_on: wrong, ..SECOND }, Place::Search, 3, 60);
}

#[test]
fn a_search_that_forgets_a_refusal() {
    fn wrong(model: &[u8], state: &[i64], under_way: &mut [i64], number: u64) -> Progress {
        let progress = carry_on(model, state, under_way, number);
        if progress.number == 0 {
            under_way[pieces::MET] = 0;
        }
        progress
    }
    found(Engine { carry_on: wrong, ..SECOND }, Place::Search, 3, 200);
}

#[test]
fn a_search_that_notes_a_refusal_too_early() {
    fn wrong(model: &[u8], state: &[i64], under_way: &mut [i64], number: u64) -> Progress {
        let progress = carry_on(model, state, under_way, number);
        let mut other = under_way.to_vec();
        let next =
            (progress.number == 0 && progress.ended == 0 && number > 0).then(|| carry_on(model, state, &mut other, 1));
        if next.is_some_and(|next| next.number == 0 && next.ended == 0) {
            under_way[pieces::MET] = other[pieces::MET];
        }
        progress
    }
    found(Engine { carry_on: wrong, ..SECOND }, Place::Search, 3, 200);
}

#[test]
fn an_opening_that_leaves_the_search() {
    fn wrong(text: &[u8], mut lent: Opening) -> Answer {
        let before = lent.search.to_vec();
        let answer = open(text, lent.again());
        if answer.number == 0 {
            lent.search.copy_from_slice(&before);
        }
        answer
    }
    found(Engine { open: wrong, ..SECOND }, Place::Search, 4, 120);
}

#[test]
fn a_steady_opening_that_looks_at_calls_alone() {
    fn wrong(text: &[u8], mut lent: Opening) -> Answer {
        let answer = open_steady(text, lent.again());
        if answer.number == 29 && text[answer.place as usize] == b'(' {
            return open(text, lent);
        }
        answer
    }
    found(Engine { open_steady: wrong, ..SECOND }, Place::Answer, 1, 60);
}

#[test]
fn a_steady_opening_that_keeps_what_it_refuses() {
    fn wrong(text: &[u8], mut lent: Opening) -> Answer {
        let answer = open_steady(text, lent.again());
        if answer.number == 29 {
            open(text, lent);
        }
        answer
    }
    found(Engine { open_steady: wrong, ..SECOND }, Place::State, 1, 60);
}

/// The total of a state, 0 where it has no listing.
fn total(model: &[u8], state: &[i64]) -> u64 {
    list(model, state, &mut vec![0; LISTING]).total
}

#[test]
fn a_first_word_that_is_never_turned_away() {
    fn wrong(model: &[u8], lent: Running) -> Ran {
        let (mut words, total) = (lent.words.to_vec(), total(model, lent.state));
        if let Some(first) = words.first_mut().filter(|_| total > 0) {
            *first %= total;
        }
        run(model, Running { words: &words, ..lent })
    }
    found(Engine { run: wrong, ..SECOND }, Place::Answer, 2, 120);
}

#[test]
fn a_word_at_the_bound_that_is_used() {
    fn wrong(model: &[u8], lent: Running) -> Ran {
        let (mut words, total) = (lent.words.to_vec(), total(model, lent.state));
        if let Some(first) = words.first_mut().filter(|first| total > 0 && u128::from(**first) == ran::bound(total)) {
            *first = 0;
        }
        run(model, Running { words: &words, ..lent })
    }
    found(Engine { run: wrong, ..SECOND }, Place::Answer, 2, 120);
}

#[test]
fn words_turned_away_at_the_end_that_are_counted() {
    fn wrong(model: &[u8], lent: Running) -> Ran {
        let (words, most) = (lent.words.len() as u64, lent.limit.min((lent.events.len() / ran::EVENT) as u64));
        let ran = run(model, lent);
        let ended = ran.number == 0 && ran.steps < most;
        Ran { words: if ended { words } else { ran.words }, ..ran }
    }
    found(Engine { run: wrong, ..SECOND }, Place::Answer, 2, 120);
}

#[test]
fn a_run_that_counts_the_words_of_a_refused_step() {
    fn wrong(model: &[u8], lent: Running) -> Ran {
        let ran = run(model, lent);
        Ran { words: ran.words + u64::from(ran.number >= 23), ..ran }
    }
    found(Engine { run: wrong, ..SECOND }, Place::Answer, 2, 100);
}

#[test]
fn a_run_that_asks_for_a_word_before_fifteen() {
    fn wrong(model: &[u8], lent: Running) -> Ran {
        let words = lent.words.len() as u64;
        let ran = run(model, lent);
        let ended = ran.number == 15 && ran.words == words;
        Ran { number: if ended { 0 } else { ran.number }, ..ran }
    }
    found(Engine { run: wrong, ..SECOND }, Place::Answer, 2, 100);
}

#[test]
fn an_event_with_the_ticks_before_the_step() {
    fn wrong(model: &[u8], mut lent: Running) -> Ran {
        let mut ticks = lent.clock.ticks;
        let ran = run(model, lent.again());
        for event in lent.events.chunks_mut(ran::EVENT).take(ran.steps as usize) {
            std::mem::swap(&mut event[0], &mut ticks);
        }
        ran
    }
    found(Engine { run: wrong, ..SECOND }, Place::Events, 2, 120);
}

#[test]
fn numbers_past_the_last_event_that_are_zeroed() {
    fn wrong(model: &[u8], mut lent: Running) -> Ran {
        let ran = run(model, lent.again());
        if ran.number != 1 && ran.number != 11 {
            lent.events[ran::EVENT * ran.steps as usize..].fill(0);
        }
        ran
    }
    // The events lent must hold something.
    found(Engine { run: wrong, ..SECOND }, Place::Events, 3, 120);
}

#[test]
fn a_run_that_lists_once_more_at_its_limit() {
    fn wrong(model: &[u8], mut lent: Running) -> Ran {
        let ran = run(model, lent.again());
        if ran.number != 0 || ran.steps != lent.limit {
            return ran;
        }
        let listed = list(model, lent.state, &mut vec![0; LISTING]);
        Ran { count: listed.count, total: listed.total, ..ran }
    }
    found(Engine { run: wrong, ..SECOND }, Place::Answer, 2, 120);
}

#[test]
fn a_refused_run_that_goes_back() {
    fn wrong(model: &[u8], mut lent: Running) -> Ran {
        let (before, start) = (lent.state.to_vec(), *lent.clock);
        let ran = run(model, lent.again());
        if ran.number != 0 {
            lent.state.copy_from_slice(&before);
            *lent.clock = start;
        }
        ran
    }
    found(Engine { run: wrong, ..SECOND }, Place::Clock, 2, 160);
}

#[test]
fn a_run_whose_steps_share_their_waiting_draws() {
    fn wrong(model: &[u8], mut lent: Running) -> Ran {
        let ran = run(model, lent.again());
        if ran.number != 23 || ran.steps != 1 {
            return ran;
        }
        // One step more, by the draws of the first.
        let (words, events) = (&lent.words[ran.words as usize..], &mut lent.events[ran::EVENT..]);
        let more = run(model, Running { words, events, limit: lent.limit - 1, ..lent });
        Ran { number: more.number, steps: 1 + more.steps, words: ran.words + more.words, ..ran }
    }
    found(Engine { run: wrong, ..SECOND }, Place::Answer, 2, 120);
}

/// What is said of an engine for which the order of independent entries matters.
fn disordered(wrong: Engine) -> String {
    with_stack(move || orders::run(&wrong, 0..orders::SEEDS, &mut Tried::default()).unwrap_err())
}

#[test]
fn a_step_that_puts_what_follows_at_the_end() {
    fn wrong(model: &[u8], state: &mut [i64], listing: &mut [u64], draw: u64) -> Answer {
        let before = state[0];
        let answer = step(model, state, listing, draw);
        if answer.number == 0 && state[0] == before {
            let place = FIRST_PROCESS + PROCESS * listing[ENTRY * answer.chosen as usize + 1] as usize;
            state[place..FIRST_PROCESS + PROCESS * before as usize].rotate_left(PROCESS);
        }
        answer
    }
    let fault = disordered(Engine { step: wrong, ..SECOND });
    assert!(fault.contains("the listing has") || fault.contains("ends otherwise"), "{fault}");
}

#[test]
fn a_step_that_counts_the_steps_before_it() {
    // A local of the last process tells which entry was taken first.
    fn wrong(model: &[u8], state: &mut [i64], listing: &mut [u64], draw: u64) -> Answer {
        let last = state[0];
        let answer = step(model, state, listing, draw);
        let place = FIRST_PROCESS + PROCESS * (state[0] as usize).saturating_sub(1);
        if answer.number == 0 && state[0] < last && state[place + 1] > 0 {
            state[place + 1] += answer.chosen as i64;
        }
        answer
    }
    let fault = disordered(Engine { step: wrong, ..SECOND });
    assert!(fault.contains("the listing has") || fault.contains("ends otherwise"), "{fault}");
}

#[test]
fn entries_that_share_their_receiver_alone() {
    fn wrong(entry: &[u64], other: &[u64]) -> bool {
        let sent = |row: &[u64]| row.len() == ENTRY && row[0] == 7 && row[ENTRY - 1] > 0;
        let senders = sent(entry) && sent(other) && entry[1] != other[1];
        senders || (SECOND.independent)(entry, other)
    }
    assert!(disordered(Engine { independent: wrong, ..SECOND }).contains("says otherwise"));
}
