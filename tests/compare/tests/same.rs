//! The second engine against itself on the fixed seeds: nothing differs, and everything is met.

use compare::met::Met;
use compare::orders::{self, Tried};
use compare::{lists, specimens, with_stack};
use second::generate::SECOND;

#[test]
fn the_fixed_seeds_meet_everything() {
    let met = with_stack(|| {
        let mut met = Met::default();
        if let Err(report) = lists::run(&SECOND, &SECOND, 0..lists::LISTS, &mut met) {
            panic!("{report}");
        }
        met
    });
    println!("{met}");
    assert_eq!(met.missing(&specimens::names()), Vec::<String>::new());
    assert!(met.calls >= lists::LEAST_CALLS);
}

#[test]
fn what_was_not_met_is_told() {
    let missing = Met::default().missing(&specimens::names());
    let answers = [11, 12, 6, 11, 14, 6, 5, 5, 5, 5, 13, 4, 5];
    // Kinds of steps, draws, values at the ends; lengths found, what searches, pieces and runs meet, places of a 29.
    let others = [1 + 6 * 3, 4, 3 * 4, 9, 29, 22, 35, 2, specimens::names().len()];
    assert_eq!(missing.len(), answers.iter().chain(&others).sum::<usize>(), "{missing:?}");
}

#[test]
fn independent_entries_end_alike_in_both_orders() {
    let met = with_stack(|| {
        let mut met = Tried::default();
        orders::run(&SECOND, 0..orders::SEEDS, &mut met).unwrap();
        met
    });
    println!("{met}");
    assert_eq!(met.missing(), Vec::<String>::new());
    assert_eq!(Tried::default().missing().len(), 17);
}
