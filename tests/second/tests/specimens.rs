//! The specimens and the mistakes that 01 lists.

mod common;

use common::*;
use second::sheet::sheet;
use second::Answer;

const LAMPS: &str = "g = 0.25;
Lamp[n] = {@pass![n],2}.Lamp[n+1] + [n<3] -> {go,g*n}.Lamp[n+1];
Post[a] = {@pass?[a..a+1](v),1.5}.Post[v];
Lamp[1] || Lamp[4] || Post[1];
";

#[test]
fn the_sheet() {
    let expected = "kind,place,branch,partner,pbranch,pair,weight
7,0,0,2,0,0,300000000
1,0,1,0,0,0,25000000
total,325000000
";
    assert_eq!(sheet(LAMPS.as_bytes()), expected);
    assert_eq!(sheet(b"A[]={go,1};"), "refused,5,11\n");
    assert_eq!(sheet(b"A[]={go,1}+{go,1/0};A[];"), "refused,5,18\n");
    assert_eq!(sheet(b"A[]={go,1}+{go,1*(1/0)};A[]||A[];"), "refused,12,0,1\n");
    assert_eq!(sheet(&[b' '; 16_385]), "refused,2,16384\n");
    assert_eq!(sheet(b"A[]={go,1};0*A[];"), "kind,place,branch,partner,pbranch,pair,weight\ntotal,0\n");
}

#[test]
fn draws_on_the_sheet() {
    let accepted = |chosen| Answer { count: 2, total: 325_000_000, chosen, ..Answer::default() };
    let mut bench = Bench::of(LAMPS);
    assert_eq!(bench.processes(1), [[0, 1], [0, 4], [1, 1]]);
    assert_eq!(bench.step(299_999_999), accepted(0));
    assert_eq!(bench.processes(1), [[0, 2], [0, 4], [1, 1]]);
    assert_eq!(bench.filled(2), [[7, 0, 0, 2, 0, 0, 300_000_000], [1, 0, 1, 0, 0, 0, 25_000_000]]);

    let mut bench = Bench::of(LAMPS);
    assert_eq!(bench.step(300_000_000), accepted(1));
    assert_eq!(bench.processes(1), [[0, 2], [0, 4], [1, 1]]);

    let mut bench = Bench::of(LAMPS);
    assert_eq!(bench.step(324_999_999), accepted(1));
    assert_eq!(bench.step(0).number, 0);

    let mut bench = Bench::of(LAMPS);
    let before = bench.state.clone();
    assert_eq!(bench.step(325_000_000), Answer { number: 16, count: 2, total: 325_000_000, ..Answer::default() });
    assert_eq!(bench.state, before);
    assert_eq!(bench.filled(2), [[7, 0, 0, 2, 0, 0, 300_000_000], [1, 0, 1, 0, 0, 0, 25_000_000]]);
}

#[test]
fn a_bound_handshake_takes_the_value_sent() {
    let mut bench = Bench::of(LAMPS);
    bench.take(0);
    assert_eq!(bench.processes(1), [[0, 2], [0, 4], [1, 1]]);
    // The post wants 1 or 2 and is sent 2.
    bench.take(0);
    assert_eq!(bench.processes(1), [[0, 3], [0, 4], [1, 2]]);
}

#[test]
fn division() {
    // All four signs, with a remainder and without.
    assert_eq!(value_of("-7/2"), Some(-4));
    assert_eq!(value_of("7/-2"), Some(-4));
    assert_eq!(value_of("7/2"), Some(3));
    assert_eq!(value_of("-7/-2"), Some(3));
    assert_eq!(value_of("-8/2"), Some(-4));
    assert_eq!(value_of("8/-2"), Some(-4));
    assert_eq!(value_of("8/2"), Some(4));
    assert_eq!(value_of("-8/-2"), Some(4));
    assert_eq!(value_of("-2147483648/-1"), Some(2_147_483_648));
    assert_eq!(value_of("-2147483648/1"), Some(-2_147_483_648));
    // A dividend nearer to zero than the divisor, and zero.
    assert_eq!(value_of("1/2"), Some(0));
    assert_eq!(value_of("-1/2"), Some(-1));
    assert_eq!(value_of("1/-2"), Some(-1));
    assert_eq!(value_of("-1/-2"), Some(0));
    assert_eq!(value_of("0/-5"), Some(0));
    for dividend in ["5", "0", "-5", "1099511627775", "-1099511627775", "(1/2)"] {
        assert_eq!(value_of(&format!("{dividend}/0")), None);
        assert_eq!(value_of(&format!("{dividend}/(1/2)")), None);
    }
}

#[test]
fn division_at_the_ends() {
    let end = 1_099_511_627_775;
    assert_eq!(value_of("-1099511627775/-1"), Some(end));
    assert_eq!(value_of("1099511627775/-1"), Some(-end));
    assert_eq!(value_of("1099511627775/1099511627775"), Some(1));
    assert_eq!(value_of("-1099511627775/1099511627775"), Some(-1));
    assert_eq!(value_of("1099511627774/1099511627775"), Some(0));
    assert_eq!(value_of("-1099511627774/1099511627775"), Some(-1));
    assert_eq!(value_of("-1/1099511627775"), Some(-1));
    assert_eq!(value_of("1/-1099511627775"), Some(-1));
    assert_eq!(value_of("-1/-1099511627775"), Some(0));
    assert_eq!(value_of("1099511627775/2"), Some(549_755_813_887));
    assert_eq!(value_of("-1099511627775/2"), Some(-549_755_813_888));
    assert_eq!(value_of("1099511627775/-2"), Some(-549_755_813_888));
    assert_eq!(value_of("-1099511627775/-2"), Some(549_755_813_887));
}

/// The quotient q of a by b has q b at most a and a below (q + 1) b, turned round for a b below 0.
#[test]
fn division_by_its_definition() {
    for dividend in -20_i64..=20 {
        for divisor in (-8..=8).filter(|&divisor| divisor != 0) {
            let quotient = value_of(&format!("{dividend}/{divisor}")).unwrap();
            let (low, high) = (quotient * divisor, (quotient + 1) * divisor);
            let within =
                if divisor > 0 { low <= dividend && dividend < high } else { high < dividend && dividend <= low };
            assert!(within, "{dividend}/{divisor} is {quotient}");
        }
    }
    // Bins of equal width on both sides of the origin.
    let bins: Vec<_> = (-6..=5).map(|place| value_of(&format!("{place}/3"))).collect();
    assert_eq!(bins, [-2, -2, -2, -1, -1, -1, 0, 0, 0, 1, 1, 1].map(Some));
}

#[test]
fn sets() {
    assert_eq!(members("3..5\\4"), [3, 5]);
    assert_eq!(members("5..4"), []);
    assert_eq!(members("5..5"), [5]);
    assert_eq!(members("1..3 union 2..5 inter 3..9"), [3, 4, 5]);
    assert_eq!(members("1..9 inter 3..5 union 7"), [3, 4, 5, 7]);
    assert_eq!(members("1..9\\3..7 union 5"), [1, 2, 5, 8, 9]);
    assert_eq!(members("1 union 1..4\\1"), [2, 3, 4]);
    assert_eq!(members("-2..-1"), [-2, -1]);
    refused(5, "A[]={c?[¶1.5],1};A[];");
    refused(5, "A[]={c?[1..¶1.5],1};A[];");
}

#[test]
fn launch_launch_kill() {
    let mut bench = Bench::of("A[]={c![1],1}.{c![1],1}.{c#[1],1}.{~c?[1],1};A[];");
    bench.take(0);
    assert_eq!(bench.short_pairs(), [[1, 0, 1, 1, 0]]);
    bench.take(0);
    assert_eq!(bench.short_pairs(), [[1, 0, 1, 1, 0]]);
    bench.take(0);
    assert!(bench.short_pairs().is_empty());
    assert_eq!(bench.entries(), [[6, 0, 0, 0, 0, 0, 100_000_000]]);
    bench.take(0);
    assert!(bench.processes(0).is_empty());
}

#[test]
fn two_matching_pairs() {
    let text = |names: &str| format!("A[]={{c![1],1}}.{{c![2],1}}.{{d![1],1}}.{{c?[0..3]{names},1}};A[];");
    let mut bench = Bench::of(&text(""));
    (0..3).for_each(|_| bench.take(0));
    assert_eq!(bench.entries(), [[4, 0, 0, 0, 0, 0, 100_000_000]]);
    let mut bench = Bench::of(&text("(x)"));
    (0..3).for_each(|_| bench.take(0));
    assert_eq!(bench.entries(), [[5, 0, 0, 0, 0, 0, 100_000_000], [5, 0, 0, 0, 0, 1, 100_000_000]]);
}

#[test]
fn check_on_no_pairs() {
    assert_eq!(Bench::of("A[]={~c?[0..9],1};A[];").entries(), [[6, 0, 0, 0, 0, 0, 100_000_000]]);
}

#[test]
fn no_handshake_with_itself() {
    let one = "A[]={@c![1],1}+{@c?[1],1};";
    assert!(Bench::of(&format!("{one}A[];")).entries().is_empty());
    assert_eq!(
        Bench::of(&format!("{one}2*A[];")).entries(),
        [[7, 0, 0, 1, 1, 0, 100_000_000], [7, 1, 0, 0, 1, 0, 100_000_000]]
    );
}

#[test]
fn a_missing_bracket() {
    assert_eq!(answer_to(b"A[]={go,1}.(B[];B[]={go,1};A[];"), (5, 15));
}

#[test]
fn rates_lengths_and_processes() {
    assert_eq!(rate_of("", "100000"), Some(1_000_000_000));
    assert_eq!(rate_of("", "100000.0001"), None);
    assert_eq!(answer_to(&[b' '; 16_385]), (2, 16_384));
    refused(10, "A[]={go,1};B[]={go,1};¶256*A[]||B[];");
}

// Mistakes seen in such engines.

#[test]
fn no_19_for_a_lit_pair_or_after_a_kill() {
    let mut bench = Bench::of("A[n]={c![n],1}+{c#[n],1}.A[0];A[0];");
    bench.state[1] = 256;
    for value in 0..256 {
        bench.set_short_pair(value, [1, 0, 1, value as i64, 0]);
    }
    let full = bench.short_pairs();
    // Lit already.
    let before = bench.state.clone();
    bench.take(0);
    assert_eq!(bench.short_pairs(), full);
    // Not lit.
    bench.state = before.clone();
    bench.set_process(0, &[0, 256]);
    let state = bench.state.clone();
    let answer = bench.step(0);
    assert_eq!(answer, Answer { number: 19, count: 2, total: 200_000_000, ..Answer::default() });
    assert_eq!(bench.state, state);
    assert_eq!(bench.filled(2).len(), 2);
    // A kill of an unlit pair takes nothing away.
    bench.take(1);
    assert_eq!(bench.short_pairs(), full);
    // A kill frees a place.
    bench.state = before;
    bench.take(1);
    assert_eq!(bench.short_pairs(), full[1..]);
    bench.set_process(0, &[0, -1]);
    bench.take(0);
    assert_eq!(bench.short_pairs()[0], [1, 0, 1, -1, 0]);
    assert_eq!(bench.short_pairs()[1..], full[1..]);
}

#[test]
fn nothing_behind_a_false_part() {
    assert_eq!(listed("A[i,y]=[i>0 & y/i>1]->{go,1};A[0,5];"), (0, 0, 0));
    assert_eq!(listed("A[i,y]=[y/i>1 & i>0]->{go,1};A[0,5];"), (12, 0, 0));
    assert_eq!(listed("A[i,y]=[i==0 | y/i>1]->{go,1};A[0,5];"), (0, 0, 0));
    assert_eq!(listed("A[i,y]=[i>0]->{c![y/i],1*(y/i)};A[0,5];"), (0, 0, 0));
    assert_eq!(listed("A[i,y]=[i>=0]->{go,1}+{go,1*(y/i)};A[1,5]||A[0,5];"), (12, 1, 1));
    // The left side of | is a conjunction that is decided early; the right side is evaluated.
    assert_eq!(listed("A[i]=[i>0 & 1/i>0 | 1/i>0]->{go,1};A[0];"), (12, 0, 0));
    assert_eq!(listed("A[i]=[i>0 & 1/i>0 | i==0 | 1/i>0]->{go,1};A[0];"), (0, 0, 0));
}

#[test]
fn senders_meet_earlier_and_later_processes() {
    let mut bench = Bench::of("S[]={@c![1],1};R[]={@c?[1],1}+{@c?[0..1](x),2};R[]||S[]||R[];");
    assert_eq!(
        bench.entries(),
        [
            [7, 1, 0, 0, 0, 0, 100_000_000],
            [7, 1, 0, 0, 1, 0, 200_000_000],
            [7, 1, 0, 2, 0, 0, 100_000_000],
            [7, 1, 0, 2, 1, 0, 200_000_000],
        ]
    );
}

#[test]
fn a_missing_bracket_does_not_run_on() {
    refused(5, "A[]={go,1}.(B[]||{x,1}¶;B[]={go,1};A[];");
    refused(5, "A[]={c![(1+2¶],1};B[]={go,1};A[];");
    refused(5, "A[]={c![1,2¶;B[]={go,1};A[];");
}
