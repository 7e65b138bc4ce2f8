//! Channels of one to three items (02, note 7).

mod common;

use common::*;
use second::state::PAIR;
use second::Answer;

/// A pair on a channel of these items (kind and number), with these values.
fn pair(items: &[(i64, i64)], values: &[i64]) -> [i64; PAIR] {
    let mut numbers = [0; PAIR];
    numbers[0] = items.len() as i64;
    for (place, (kind, number)) in items.iter().enumerate() {
        numbers[1 + 2 * place..3 + 2 * place].copy_from_slice(&[*kind, *number]);
    }
    numbers[7] = values.len() as i64;
    numbers[8..8 + values.len()].copy_from_slice(values);
    numbers
}

/// The pairs lit after the first entry was taken so often.
fn lit_after(text: &str, steps: usize) -> Vec<[i64; PAIR]> {
    let mut bench = Bench::of(text);
    (0..steps).for_each(|_| bench.take(0));
    bench.pairs()
}

/// The kinds of the entries of a model with these pairs lit.
fn kinds_with(text: &str, pairs: &[[i64; PAIR]]) -> Vec<u64> {
    let mut bench = Bench::of(text);
    bench.light(pairs);
    bench.entries().iter().map(|entry| entry[0]).collect()
}

#[test]
fn ten_numbers_a_pair() {
    let text = "A[n]={c![7],1}.{c,n+1![7,8],1}.{n,c,d![7],1}.{-1,2,c![-7,0],1};A[4];";
    assert_eq!(
        lit_after(text, 4),
        [
            [1, 1, 0, 0, 0, 0, 0, 1, 7, 0],
            [2, 1, 0, 0, 5, 0, 0, 2, 7, 8],
            [3, 0, -1, 0, 2, 1, 0, 2, -7, 0],
            [3, 0, 4, 1, 0, 1, 1, 1, 7, 0],
        ]
    );
}

#[test]
fn names_are_numbered_by_first_appearance_as_an_item() {
    // w is a whole variable, n a local in A and a name in B, g a decimal variable, go a wait before it is an item.
    let text = "w=7;g=1.5;A[n]={go,1}.{w,b,n![1],g}.{a,g,(n)![1],1}.{go,a,b![1],1}.B[];B[]={n,1,w![1],1};A[3];";
    assert_eq!(
        lit_after(text, 5),
        [
            pair(&[(0, 7), (1, 0), (0, 3)], &[1]),
            pair(&[(1, 1), (1, 2), (0, 3)], &[1]),
            pair(&[(1, 3), (1, 1), (1, 0)], &[1]),
            pair(&[(1, 4), (0, 1), (0, 7)], &[1]),
        ]
    );
    // From left to right; checks, handshakes and kills count too; a rate doesn't.
    let text = "r=1;A[]={~d,c?[1],r}.{@b,d,a?[1],r}+{e,b#[1],r}+{a,b,e![1],r};A[];";
    let mut bench = Bench::of(text);
    let launch = bench.entries().iter().position(|entry| entry[0] == 2).unwrap();
    bench.take(launch);
    assert_eq!(bench.pairs(), [pair(&[(1, 3), (1, 2), (1, 4)], &[1])]);
}

#[test]
fn a_launch_lights_and_a_kill_puts_out_the_same_list_alone() {
    let text = "A[]={c![1],1}.{c,1![1],1}.{c,1,d![1],1}.{c,1#[1],1}.{c,1#[1],1}.{c,1,d#[2],1}.{c,d,1#[1],1}.{c,1,d#[1],1};A[];";
    let all = [pair(&[(1, 0)], &[1]), pair(&[(1, 0), (0, 1)], &[1]), pair(&[(1, 0), (0, 1), (1, 1)], &[1])];
    assert_eq!(lit_after(text, 3), all);
    assert_eq!(lit_after(text, 4), [all[0], all[2]]);
    assert_eq!(lit_after(text, 7), [all[0], all[2]]);
    assert_eq!(lit_after(text, 8), [all[0]]);
}

/// One launch's channel against a receive's: both as items of a pair and of a wanted channel.
const MATCHES: [(&str, &str, bool); 18] = [
    ("c", "c", true),
    ("c", "d", false),
    ("c", "c,c", false),
    ("c,c", "c", false),
    ("c,d", "c,d", true),
    ("c,d", "d,c", false),
    ("c,d", "c,c", false),
    ("c,0", "c,d", false),
    ("0,d", "c,d", false),
    ("c,1", "c,1", true),
    ("c,1", "c,2-1", true),
    ("c,1", "c,2", false),
    ("c,1", "c,1,0", false),
    ("c,0", "c,0,0", false),
    ("c,1,2", "c,1,2", true),
    ("c,1,2", "c,1,3", false),
    ("c,1,2", "d,1,2", false),
    ("1,c,d", "1,c,d", true),
];

#[test]
fn channels_match_item_for_item() {
    for (sent, wanted, same) in MATCHES {
        // c is name 0, d name 1 in both texts.
        let names = "N[]={c,d#[1],0};";
        let lit = lit_after(&format!("{names}A[]={{{sent}![1],1}};A[];"), 1);
        let text =
            |receive: &str| format!("{names}A[]={{{wanted}?[0..9]{receive},1}}+{{~{wanted}?[0..9],1}}+{{go,1}};A[];");
        let kinds = kinds_with(&text(""), &lit);
        assert_eq!(kinds, if same { [4, 1] } else { [6, 1] }, "{sent} and {wanted}");
        let kinds = kinds_with(&text("(x)"), &lit);
        assert_eq!(kinds, if same { [5, 1] } else { [6, 1] }, "{sent} and {wanted}");
        let text = format!("{names}S[]={{@{sent}![1],1}};R[]={{@{wanted}?[0..9],1}};S[]||R[];");
        assert_eq!(kinds_with(&text, &[]), vec![7; usize::from(same)], "{sent} and {wanted}");
    }
}

#[test]
fn locals_and_bound_names_in_channels() {
    // A fork in two dimensions: it lights where it stands and goes on where a neighbour is dark.
    let text = "F[x,y]={at,x,y![x],1}.[x<2]->{~at,x+1,y?[0..9],1}.F[x+1,y];F[0,5];";
    let mut bench = Bench::of(text);
    (0..3).for_each(|_| bench.take(0));
    assert_eq!(bench.pairs(), [pair(&[(1, 0), (0, 0), (0, 5)], &[0]), pair(&[(1, 0), (0, 1), (0, 5)], &[1])]);
    // What is received is an item of the next channel.
    let text = "A[]={c,1![7],1}.{c,1?[0..9](v),1}.{v,c,v![v],1};A[];";
    assert_eq!(lit_after(text, 3), [pair(&[(1, 0), (0, 1)], &[7]), pair(&[(0, 7), (1, 0), (0, 7)], &[7])]);
    // A handshake over a list binds too.
    let mut bench = Bench::of("S[n]={@c,n,1![n+1],1};R[]={@c,4,1?[0..9](v),1}.{v,v![v],1};S[4]||R[];");
    (0..2).for_each(|_| bench.take(0));
    assert_eq!(bench.pairs(), [pair(&[(0, 5), (0, 5)], &[5])]);
}

#[test]
fn each_item_has_a_value() {
    let refused = Answer { branch: 1, ..Answer::refusal(12) };
    for action in ["1/0,c![1]", "c,1/0![1]", "c,d,1/0#[1]", "c,1/0?[1]", "~c,d,1/0?[1]", "@c,1/0![1]", "@1/0,c,d?[1]"] {
        let mut bench = Bench::of(&format!("A[]={{go,1}}+{{{action},1}};A[];"));
        assert_eq!(bench.list(), refused, "{action}");
    }
    // Behind a false gate none is evaluated.
    assert_eq!(listed("A[]=[1>2]->{c,1/0![1],1};A[];"), (0, 0, 0));
    // At both ends of the range.
    let text = "A[n]={n,c,-1099511627775![1],1};A[1099511627775];";
    let end = 1_099_511_627_775;
    assert_eq!(lit_after(text, 1), [pair(&[(0, end), (1, 0), (0, -end)], &[1])]);
    assert_eq!(listed("A[n]={n+1,c![1],1};A[1099511627775];"), (12, 0, 0));
}

#[test]
fn a_wait_has_its_rate_and_a_channel_its_own() {
    let mut bench = Bench::of("A[n]={a,n*2}+{a,n*2![1],3}+{a,1.5}+{a,n,2?[1],4}+{a,n}+{~a,n?[1],5};A[6];");
    let entries = bench.entries();
    let weights: Vec<(u64, u64)> = entries.iter().map(|entry| (entry[0], entry[6] / 10_000_000)).collect();
    assert_eq!(weights, [(1, 120), (2, 30), (1, 15), (1, 60), (6, 50)]);
    bench.take(1);
    assert_eq!(bench.pairs(), [pair(&[(1, 0), (0, 12)], &[1])]);
}

/// A state of a model with channel names c and d with these pairs, judged by 11.
fn is_state(pairs: &[[i64; PAIR]]) -> bool {
    let mut bench = Bench::of("A[]={c,d![1],1};A[];");
    bench.light(pairs);
    bench.listing.fill(9);
    let number = bench.list().number;
    assert_eq!(number == 11, bench.listing.iter().all(|&number| number == 9));
    number != 11
}

#[test]
fn eleven_for_the_items_of_a_pair() {
    let end = 1_099_511_627_775;
    for items in 1..=3 {
        let lit: Vec<(i64, i64)> = vec![(1, 1); items];
        assert!(is_state(&[pair(&lit, &[1])]));
        assert!(is_state(&[pair(&vec![(0, end); items], &[1, 2])]));
        for place in 0..items {
            let with = |kind, number| {
                let mut changed = lit.clone();
                changed[place] = (kind, number);
                is_state(&[pair(&changed, &[1])])
            };
            assert!(with(0, -end) && with(0, end) && with(1, 0) && with(0, 2));
            assert!(!with(0, -end - 1) && !with(0, end + 1));
            assert!(!with(1, 2) && !with(1, -1) && !with(2, 0) && !with(-1, 0));
        }
        // Items past the count are 0, and the count is theirs.
        for place in 1 + 2 * items..7 {
            let mut numbers = pair(&lit, &[1]);
            numbers[place] = 1;
            assert!(!is_state(&[numbers]), "{numbers:?}");
        }
        for count in [-1, 0, 4, i64::MAX, i64::MIN] {
            let mut numbers = pair(&lit, &[1]);
            numbers[0] = count;
            assert!(!is_state(&[numbers]), "{numbers:?}");
        }
    }
    // One item fewer leaves a number that is unused; one more, number 0 after it, makes another channel.
    let mut numbers = pair(&[(1, 1), (0, 3)], &[1]);
    numbers[0] = 1;
    assert!(!is_state(&[numbers]));
    numbers[0] = 3;
    assert!(is_state(&[numbers]));
    // Counts of values.
    for count in [-1, 0, 3] {
        let mut numbers = pair(&[(1, 1), (0, 3)], &[1]);
        numbers[7] = count;
        assert!(!is_state(&[numbers]));
    }
    let mut numbers = pair(&[(1, 1), (0, 3)], &[1]);
    numbers[9] = 1;
    assert!(!is_state(&[numbers]));
}

#[test]
fn pairs_ascend_field_by_field() {
    let ascending = [
        pair(&[(0, 9)], &[9]),
        pair(&[(1, 0)], &[9, 9]),
        pair(&[(1, 1)], &[-9]),
        pair(&[(0, -5), (1, 1)], &[9]),
        pair(&[(0, -4), (0, 7)], &[9]),
        pair(&[(0, -4), (1, 0)], &[9]),
        pair(&[(1, 0), (0, -1)], &[9]),
        pair(&[(1, 0), (0, -1)], &[-9, 9]),
        pair(&[(1, 0), (0, 0)], &[-9]),
        pair(&[(0, 0), (0, 0), (0, -1)], &[0]),
        pair(&[(0, 0), (0, 0), (0, 0)], &[0]),
        pair(&[(0, 0), (0, 0), (1, 0)], &[-1]),
        pair(&[(0, 0), (0, 0), (1, 0)], &[0]),
        pair(&[(0, 0), (0, 0), (1, 0)], &[-1, 0]),
        pair(&[(0, 0), (0, 0), (1, 0)], &[-1, 1]),
        pair(&[(0, 0), (1, 0), (0, -1)], &[0]),
    ];
    assert!(is_state(&ascending));
    for place in 1..ascending.len() {
        assert!(is_state(&[ascending[place - 1], ascending[place]]));
        assert!(!is_state(&[ascending[place], ascending[place - 1]]));
        assert!(!is_state(&[ascending[place], ascending[place]]));
    }
    // Launches keep the order, whatever theirs is.
    let text = "A[]={c,1![1],1}.{1,2,3![1],1}.{c![1],1}.{d![1],1}.{1,d![1],1};A[];";
    let lit = lit_after(text, 5);
    assert!(lit.windows(2).all(|two| two[0] < two[1]), "{lit:?}");
    assert_eq!(lit.iter().map(|pair| pair[0]).collect::<Vec<_>>(), [1, 1, 2, 2, 3]);
}

#[test]
fn pair_numbers_of_bindings_go_by_the_order() {
    let mut bench = Bench::of("A[]={c,1?[0..9](x),1}.{x![x],1};A[];");
    let pairs = [pair(&[(1, 0)], &[3]), pair(&[(1, 0), (0, 1)], &[4]), pair(&[(1, 0), (0, 1)], &[5])];
    bench.light(&pairs);
    let entries = bench.entries();
    assert_eq!(entries.iter().map(|entry| entry[5]).collect::<Vec<_>>(), [1, 2]);
    bench.take(1);
    assert_eq!(bench.processes(1), [[1, 5]]);
}

#[test]
fn pairs_of_all_lengths_count_together() {
    // 256 pairs, of one to three items, are the most.
    let text = "A[n]={c,n![1],1}.A[n+1];A[0];";
    let mut bench = Bench::of(text);
    (0..256).for_each(|_| bench.take(0));
    assert_eq!(bench.step(0).number, 19);
    assert_eq!(bench.pairs()[255], pair(&[(1, 0), (0, 255)], &[1]));
    // One that is lit already is none more.
    bench.set_process(0, &[0, 255]);
    assert_eq!(bench.step(0).number, 0);
}
