//! Named states to come back to (02, note 2).

mod common;

use common::*;
use second::clock::MOST;
use second::saves::{pack, CLOCK, LETTERS, NAME, PLACE, PLACES};
use second::state::{FIRST_PAIR, FIRST_PROCESS, PAIR, PROCESS};
use second::{Answer, Clock, SAVES, STATE};

const DONE: Answer = Answer { number: 0, place: 0, branch: 0, count: 0, total: 0, chosen: 0 };

/// Counts up, and lights a pair on the way.
const COUNTER: &str = "A[n]={c![n],1}.A[n+1]+{back,1}.A[0];2*A[5];";

fn counter() -> Bench {
    Bench::of(COUNTER)
}

/// The call is refused with this number and changes nothing.
fn refuses(bench: &Bench, number: u64, call: impl Fn(&mut Bench) -> Answer) {
    let mut after = bench.clone();
    assert_eq!(call(&mut after), Answer::refusal(number));
    assert!(after == *bench);
}

/// All three are refused with this number for this name.
fn all_refuse(bench: &Bench, number: u64, name: &str) {
    refuses(bench, number, |bench| bench.save(name));
    refuses(bench, number, |bench| bench.return_to(name));
    refuses(bench, number, |bench| bench.forget(name));
}

fn place(bench: &Bench, place: usize) -> &[i64] {
    &bench.saves[place * PLACE..(place + 1) * PLACE]
}

#[test]
fn a_return_makes_what_was_saved_the_present_state() {
    let mut bench = counter();
    let start = bench.state.clone();
    assert_eq!(bench.save("start"), DONE);
    assert!(bench.state == start);
    bench.take(0);
    bench.take(2);
    let later = bench.state.clone();
    assert_ne!(later, start);
    assert_eq!(bench.save("later"), DONE);
    let saves = bench.saves.clone();
    assert_eq!(bench.return_to("start"), DONE);
    assert_eq!(bench.state, start);
    // Later saves remain; a return changes no save.
    assert_eq!(bench.return_to("later"), DONE);
    assert_eq!((&bench.state, &bench.saves), (&later, &saves));
    bench.take(1);
    assert_eq!(bench.return_to("start"), DONE);
    assert_eq!(bench.state, start);
    // Pairs come back too, and go.
    assert_eq!((start[1], later[1]), (0, 1));
    bench.take(0);
    assert_eq!(bench.return_to("later"), DONE);
    assert_eq!(bench.state, later);
    assert_eq!(bench.return_to("start"), DONE);
    assert!(bench.short_pairs().is_empty());
}

#[test]
fn neither_listing_nor_report_is_touched() {
    let mut bench = counter();
    bench.listing.fill(9);
    bench.report.fill(8);
    let before = bench.clone();
    bench.save("a");
    bench.return_to("a");
    bench.forget("a");
    assert!(bench == before);
}

#[test]
fn a_known_name_is_replaced() {
    let mut bench = counter();
    bench.save("a");
    bench.save("b");
    bench.take(0);
    let second = bench.state.clone();
    assert_eq!(bench.save("a"), DONE);
    // In its own place.
    assert_eq!((&place(&bench, 0)[NAME..CLOCK], place(&bench, 2)), (&second[..], &[0; PLACE][..]));
    bench.return_to("b");
    assert_ne!(bench.state, second);
    bench.return_to("a");
    assert_eq!(bench.state, second);
}

const EIGHT: [&str; PLACES] = ["a", "b", "c", "d", "e", "f", "g", "h"];

/// All eight places used.
fn full() -> Bench {
    let mut bench = counter();
    for name in EIGHT {
        assert_eq!(bench.save(name), DONE);
        bench.take(0);
    }
    bench
}

#[test]
fn a_ninth_name_is_refused() {
    let bench = full();
    refuses(&bench, 22, |bench| bench.save("i"));
    refuses(&bench, 22, |bench| bench.save("A"));
    refuses(&bench, 22, |bench| bench.save("aa"));
    // Known ones are replaced even then.
    for (number, name) in EIGHT.iter().enumerate() {
        let mut bench = bench.clone();
        assert_eq!(bench.save(name), DONE);
        assert_eq!(&place(&bench, number)[NAME..CLOCK], &bench.state[..]);
    }
    // Every one is there.
    for name in EIGHT {
        assert_eq!(bench.clone().return_to(name), DONE);
    }
    refuses(&bench, 21, |bench| bench.return_to("i"));
    refuses(&bench, 21, |bench| bench.forget("i"));
}

#[test]
fn a_forget_frees_its_place() {
    let mut bench = full();
    assert_eq!(bench.forget("d"), DONE);
    assert_eq!(bench.forget("g"), DONE);
    assert_eq!((place(&bench, 3), place(&bench, 6)), (&[0; PLACE][..], &[0; PLACE][..]));
    refuses(&bench, 21, |bench| bench.return_to("d"));
    refuses(&bench, 21, |bench| bench.forget("d"));
    // The first empty place is used.
    assert_eq!(bench.save("new"), DONE);
    assert_eq!(&place(&bench, 3)[..NAME], pack(b"new"));
    assert_eq!(bench.save("d"), DONE);
    assert_eq!(&place(&bench, 6)[..NAME], pack(b"d"));
    refuses(&bench, 22, |bench| bench.save("g"));
    // A name that stands behind an empty place keeps its own.
    bench.forget("a");
    assert_eq!(bench.save("h"), DONE);
    assert_eq!(place(&bench, 0), &[0; PLACE][..]);
}

#[test]
fn names_are_1_to_16_letters() {
    let mut bench = counter();
    for name in ["a", "z", "A", "Z", "abcdefgh", "abcdefghi", "abcdefghijklmnop", "ABCDEFGHIJKLMNOP"] {
        assert_eq!(bench.save(name), DONE, "{name}");
        assert_eq!(bench.return_to(name), DONE, "{name}");
    }
    let bench = full();
    for name in
        ["", "abcdefghijklmnopq", "a1", "1", "_", "a_", "a b", " a", "a ", "a\0", "\0", "@", "[", "`", "{", "ä", "a\n"]
    {
        // Before 21 and 22.
        all_refuse(&bench, 20, name);
    }
    all_refuse(&bench, 20, &"a".repeat(100_000));
    refuses(&bench, 20, |bench| second::save(&bench.model, &bench.state, &mut bench.saves, &[0xff], bench.clock));
    assert_eq!(LETTERS, 16);
}

#[test]
fn case_counts_and_no_name_is_the_beginning_of_another() {
    let mut bench = counter();
    let names = ["a", "A", "aa", "abcdefgh", "abcdefgha", "abcdefghijklmno", "abcdefghijklmnop", "abcdefghijklmnoP"];
    let mut states = Vec::new();
    for name in names {
        assert_eq!(bench.save(name), DONE);
        states.push(bench.state.clone());
        bench.take(0);
    }
    for (name, state) in names.iter().zip(&states) {
        assert_eq!(bench.return_to(name), DONE);
        assert_eq!(bench.state, *state);
    }
}

#[test]
fn one_before_eleven_before_twenty() {
    for lengths in wrong_lengths(SAVES) {
        let bench = Bench {
            model: vec![7; lengths.0],
            state: vec![-7; lengths.1],
            saves: vec![-77; lengths.2],
            ..Bench::new()
        };
        all_refuse(&bench, 1, "a");
        all_refuse(&bench, 1, "");
    }
    // Closed.
    all_refuse(&Bench::new(), 11, "a");
    all_refuse(&Bench::dirty(), 11, "");
    // A state that is none.
    let mut bench = full();
    bench.state[0] = 257;
    all_refuse(&bench, 11, "a");
    all_refuse(&bench, 11, "");
    all_refuse(&bench, 11, "i");
}

#[test]
fn eleven_judges_the_saves() {
    let judged = |place: usize, offset: usize, number: i64| {
        let mut bench = full();
        bench.forget("c");
        bench.saves[place * PLACE + offset] = number;
        let before = bench.clone();
        // The third place is free: else a save has the answer 0.
        let answer = bench.save("new");
        if answer.number == 11 {
            all_refuse(&before, 11, "a");
            all_refuse(&before, 11, "");
        }
        answer.number
    };
    let [state, process, pair] = [NAME, NAME + FIRST_PROCESS, NAME + FIRST_PAIR];
    for place in [0, 7] {
        // Names of another form, with holes, or none.
        let own = pack(EIGHT[place].as_bytes());
        assert_eq!(judged(place, 0, own[0]), 0);
        assert_eq!(judged(place, 0, pack(b"other")[0]), 0);
        for number in
            [0, 1, own[0] << 8, own[0] | (own[0] << 16), i64::from(b'1'), -1, i64::MIN, i64::MAX, own[0] | (1 << 63)]
        {
            assert_eq!(judged(place, 0, number), 11, "{number}");
        }
        // The second number continues the first only if that one is full.
        assert_eq!(judged(place, 1, own[0]), 11);
        // A state that is none.
        for (offset, number) in [(state, 257), (state, -1), (process, 1), (process, -1), (pair, 4), (CLOCK - 1, 1)] {
            assert_eq!(judged(place, offset, number), 11, "{offset} {number}");
        }
        assert_eq!(judged(place, process + 1, 9), 0);
        for offset in [CLOCK, CLOCK + 1] {
            assert_eq!([1, i64::MAX, -1, i64::MIN].map(|number| judged(place, offset, number)), [0, 0, 11, 11]);
        }
        // A row of zeros is a process, too.
        assert_eq!(judged(place, state, 3), 0);
    }
    // The empty place.
    assert_eq!(judged(2, 0, 0), 0);
    assert_eq!(judged(2, PLACE - 1, 1), 11);
    assert_eq!(judged(2, state, 1), 11);
    assert_eq!(judged(2, 1, pack(b"x")[0]), 11);
    // A name alone is a save of a state with no process.
    assert_eq!(judged(2, 0, pack(b"x")[0]), 22);
    // No name twice.
    assert_eq!(judged(2, 0, pack(b"h")[0]), 11);
    assert_eq!(judged(0, 0, pack(b"h")[0]), 11);
}

#[test]
fn a_buffer_that_passes_is_judged_as_the_saves_it_holds() {
    let mut bench = counter();
    let [first, second] = pack(b"abcdefghijklmnop");
    bench.saves[5 * PLACE] = first;
    bench.saves[5 * PLACE + 1] = second;
    bench.saves[5 * PLACE + NAME..5 * PLACE + CLOCK].copy_from_slice(&bench.state);
    bench.saves[5 * PLACE + NAME + FIRST_PROCESS + PROCESS + 1] = -3;
    assert_eq!(bench.return_to("abcdefghijklmnop"), DONE);
    assert_eq!(bench.processes(1), [[0, 5], [0, -3]]);
    // The first empty place comes before it.
    assert_eq!(bench.save("z"), DONE);
    assert_eq!(&place(&bench, 0)[..NAME], pack(b"z"));
}

#[test]
fn openings_forget_all() {
    for text in [COUNTER, "A[]={go,1};A[];", "", "A[]={go,1};257*A[];", "A[]={go,1}.B[];A[];", "\0"] {
        let mut bench = full();
        bench.open(text);
        assert_eq!(bench.saves, vec![0; SAVES]);
        let number = if bench.model[0] == 0 { 11 } else { 21 };
        refuses(&bench, number, |bench| bench.return_to("a"));
    }
    // Refusal 1 forgets nothing.
    let mut bench = full();
    let saves = bench.saves.clone();
    bench.state.push(0);
    assert_eq!(bench.open(COUNTER), Answer::refusal(1));
    assert_eq!(bench.saves, saves);
}

#[test]
fn states_that_do_not_list_are_saved() {
    // 12, 13 and 14.
    let shakes = "S[]={@c![1],100000};R[]={@c?[1],100000};";
    for (text, number) in [
        ("A[n]={go,1/n*1};A[0];".replace("1/n*1", "1*(1/n)"), 12),
        (format!("{shakes}33*S[]||32*R[];"), 13),
        (format!("{shakes}10*S[]||R[];"), 14),
    ] {
        let mut bench = Bench::of(&text);
        assert_eq!(bench.list().number, number);
        let state = bench.state.clone();
        assert_eq!(bench.save("kept"), DONE);
        bench.state.fill(0);
        assert_eq!(bench.return_to("kept"), DONE);
        assert_eq!(bench.state, state);
    }
}

#[test]
fn the_largest_state_is_saved() {
    let mut bench = Bench::of("A[a,b,c,d,e,f]={x,y,1![1,2],1};256*A[1,2,3,4,5,6];");
    let pairs: Vec<[i64; PAIR]> = (0..256).map(|value| [3, 1, 0, 1, 1, 0, 1, 2, 0, value]).collect();
    bench.light(&pairs);
    let state = bench.state.clone();
    for name in EIGHT {
        assert_eq!(bench.save(name), DONE);
    }
    bench.state.fill(0);
    assert_eq!(bench.return_to("h"), DONE);
    assert_eq!(bench.state, state);
    assert_eq!((state.len(), bench.saves.len()), (STATE, 8 * (2 + STATE + 2)));
}

#[test]
fn returns_are_to_the_latest_accepted_save() {
    let mut bench = counter();
    bench.save("a");
    bench.take(0);
    let state = bench.state.clone();
    assert_eq!(bench.save("a"), DONE);
    bench.take(0);
    // Refused saves change nothing.
    assert_eq!(bench.save("a1"), Answer::refusal(20));
    let spoilt = bench.state[0];
    bench.state[0] = -1;
    assert_eq!(bench.save("a"), Answer::refusal(11));
    bench.state[0] = spoilt;
    assert_eq!(bench.return_to("a"), DONE);
    assert_eq!(bench.state, state);
}

#[test]
fn saves_include_the_clock() {
    let mut bench = counter();
    bench.clock = Clock { ticks: 17, draws: MOST };
    assert_eq!(bench.save("a"), DONE);
    assert_eq!(place(&bench, 0)[CLOCK..], [17, MOST as i64]);
    bench.clock = Clock { ticks: MOST, draws: 3 };
    assert_eq!(bench.save("b"), DONE);
    for (name, clock) in [("a", Clock { ticks: 17, draws: MOST }), ("b", Clock { ticks: MOST, draws: 3 })] {
        bench.clock = Clock { ticks: 1, draws: 1 };
        assert_eq!(bench.return_to(name), DONE);
        assert_eq!(bench.clock, clock);
    }
    // 11 judges a lent clock too, before 20 to 22; a forget isn't lent one.
    for clock in
        [Clock { ticks: MOST + 1, draws: 0 }, Clock { ticks: 0, draws: MOST + 1 }, Clock { ticks: u64::MAX, draws: 0 }]
    {
        bench.clock = clock;
        for name in ["a", "", "new"] {
            refuses(&bench, 11, |bench| bench.save(name));
            refuses(&bench, 11, |bench| bench.return_to(name));
        }
        refuses(&bench, 21, |bench| bench.forget("new"));
    }
}
