//! Independent moves (02, note 14).

mod common;

use common::*;
use second::generate::{Buffers, SECOND};
use second::independent::{independent, moved};
use second::listing::Entry as Move;
use second::{model, state, LISTING};

fn entry(numbers: Entry) -> Move {
    Move::read(&numbers).expect("an entry")
}

/// Is this so in both orders?
fn both(one: Entry, other: Entry) -> bool {
    assert_eq!(independent(&one, &other), independent(&other, &one));
    independent(&one, &other)
}

#[test]
fn which_entries_are_independent() {
    let alone = |kind, place, weight| [kind, place, 0, 0, 0, 0, weight];
    let shake = |place, partner| [7, place, 0, partner, 0, 0, 1];
    for kind in [1, 4, 5, 6] {
        assert!(both(alone(kind, 0, 1), alone(1, 1, 1)));
        // Weight zero, one process.
        assert!(!both(alone(kind, 0, 0), alone(1, 1, 1)));
        assert!(!both(alone(kind, 0, 1), alone(1, 0, 1)));
        // Sender and receiver.
        assert!(both(alone(kind, 1, 1), shake(0, 2)));
        assert!(!both(alone(kind, 0, 1), shake(0, 2)));
        assert!(!both(alone(kind, 2, 1), shake(0, 2)));
    }
    for kind in [2, 3] {
        for other in [1, 2, 3, 4, 5, 6] {
            assert!(!both(alone(kind, 0, 1), alone(other, 1, 1)));
        }
        assert!(!both(alone(kind, 1, 1), shake(0, 2)));
    }
    assert!(both(shake(0, 2), shake(3, 1)));
    for (place, partner) in [(0, 1), (2, 1), (1, 0), (1, 2), (2, 0), (0, 2)] {
        assert!(!both(shake(0, 2), shake(place, partner)));
    }
    // A place that isn't a handshake's partner is no acting place.
    assert!(both([1, 1, 0, 0, 0, 0, 1], [5, 2, 0, 0, 0, 1, 1]));
    assert!(both([1, 0, 0, 0, 0, 0, 1], [1, 1, 0, 0, 0, 0, 1]));
    assert!(both([1, 0, 0, 1, 0, 0, 1], [1, 1, 0, 0, 0, 0, 1]));
    assert!(both([7, u64::MAX, 0, 0, 0, 0, u64::MAX], [1, u64::MAX - 1, 0, 0, 0, 0, 1]));
}

#[test]
fn rows_of_other_lengths_and_numbers() {
    let (one, other) = ([1, 0, 0, 0, 0, 0, 1], [1, 1, 0, 0, 0, 0, 1]);
    for length in 0..7 {
        assert!(!independent(&one[..length], &other) && !independent(&one, &other[..length]));
    }
    let longer = [1, 1, 0, 0, 0, 0, 1, 0];
    assert!(!independent(&one, &longer) && !independent(&longer, &one));
    let mut buffers = Buffers::default();
    buffers.listing[..14].copy_from_slice(&[one, other].concat());
    buffers.listing[LISTING - 7..LISTING].copy_from_slice(&[1, 2, 0, 0, 0, 0, 1]);
    buffers.listing[LISTING..LISTING + 7].copy_from_slice(&[1, 3, 0, 0, 0, 0, 1]);
    for (first, second) in [(0, 1), (1, 0), (1, 1_023), (1_023, 0)] {
        assert!(buffers.independent(&SECOND, first, second));
    }
    for (first, second) in [(0, 0), (1, 1), (0, 2), (2, 1), (1, 1_024), (u64::MAX, 0), (1, u64::MAX)] {
        assert!(!buffers.independent(&SECOND, first, second));
    }
}

/// Takes the entry of the listing between that the other one became; the state afterwards.
fn after_both(bench: &Bench, first: usize, then: usize) -> Vec<i64> {
    let mut bench = bench.clone();
    let entries = bench.entries();
    let read = model::read_buffer(&bench.model).expect("an open model");
    let held = state::read_buffer(&read, &bench.state).expect("a state");
    let expected = moved(&entry(entries[then]), &entry(entries[first]), &read, &held).numbers();
    bench.take(first);
    let between = bench.entries();
    let number = between.iter().position(|&one| one == expected).expect("the moved entry is listed");
    bench.take(number);
    bench.state
}

#[test]
fn the_first_moves_the_places_of_the_other() {
    // A leaves three, B none, C one; D and E send to F, which leaves two.
    let bench = Bench::of(
        "T[]={t,1}||{u,1};A[]={a,1}.(T[]||{v,1});B[]={b,1};C[]={c,1}.C[];D[n]={@x![n],1};F[]={@x?[0..9](y),2}.(D[y]||D[y]);\
         D[1]||A[]||B[]||F[]||C[]||D[2]||F[]||A[];",
    );
    let entries = bench.clone().entries();
    let mut met = 0;
    for one in 0..entries.len() {
        for other in one + 1..entries.len() {
            if both(entries[one], entries[other]) {
                met += 1;
                assert_eq!(after_both(&bench, one, other), after_both(&bench, other, one), "{one} {other}");
            }
        }
    }
    // Four alone in pairs; four handshakes with each of them, and two by two.
    assert_eq!(met, 6 + 4 * 4 + 2);
}

#[test]
fn places_after_nothing_and_after_many() {
    let bench =
        Bench::of("A[]={a,1}.(A[]||A[]||A[]);B[]={b,1};C[]={@x![1],1}.B[];D[]={@x?[1],1};B[]||C[]||A[]||D[]||B[];");
    let read = model::read_buffer(&bench.model).expect("an open model");
    let held = state::read_buffer(&read, &bench.state).expect("a state");
    let wait = |place| entry([1, place, 0, 0, 0, 0, 1]);
    let shake = entry([7, 1, 0, 3, 0, 0, 1]);
    let places = |taken: &Move, places: &[u64]| -> Vec<usize> {
        places.iter().map(|&place| moved(&wait(place), taken, &read, &held).place).collect()
    };
    assert_eq!(places(&wait(0), &[2, 4]), [1, 3]);
    assert_eq!(places(&wait(2), &[0, 4]), [0, 6]);
    assert_eq!(places(&wait(4), &[0, 2]), [0, 2]);
    // The sender leaves one, the receiver none.
    assert_eq!(places(&shake, &[0, 2, 4]), [0, 2, 3]);
    let both = moved(&shake, &wait(2), &read, &held);
    assert_eq!((both.place, both.partner), (1, 5));
    let both = moved(&shake, &wait(0), &read, &held);
    assert_eq!((both.place, both.partner), (0, 2));
}
