//! The decisions on points that 01 leaves open, and the rules of 01 that no other test names.

mod common;

use common::*;

#[test]
fn d1_the_texts_end() {
    refused(5, "¶");
    refused(5, "A[]={go,1};A[] // never ended   \n\n¶");
}

#[test]
fn d2_numbers_under_7() {
    refused(7, "x=- ¶1099511627776;A[]={go,1};A[];");
    refused(7, "x=-¶0000000.1;A[]={go,1};A[];");
    accepted("x=-1099511627775;A[]={go,1};A[];");
}

#[test]
fn d3_bound_names() {
    refused(5, "A[]={c?[1](¶),1};A[];");
    refused(9, "A[]={c?[1]¶(x,y),1};A[];");
    refused(9, "A[]={c?[1,2]¶(x),1};A[];");
    refused(9, "A[]={@c?[1,2]¶ (x,y,z),1};A[];".replace("¶ (", " ¶(").as_str());
}

#[test]
fn d4_a_bracketed_name_is_no_channel_name() {
    refused(9, "A[]={(¶c)![1],1};A[];");
    refused(9, "A[]={¶c+1![1],1};A[];");
    refused(9, "A[]={1*¶c![1],1};A[];");
    accepted("c=1;A[]={(c)![1],1};A[];");
}

/// Of each item.
#[test]
fn d4_and_9_in_channels_of_several_items() {
    refused(9, "A[]={a,(¶c)![1],1};A[];");
    refused(9, "A[]={a,b,¶c+1![1],1};A[];");
    refused(9, "A[]={(¶c),b?[1],1};A[];");
    refused(9, "A[]={@a,1*¶c,(d)![1],1};A[];");
    refused(9, "g=1.5;A[]={a,g,¶g+1![1],1};A[];");
    accepted("c=1;g=1.5;A[n]={(c),n+1,g![1],1}+{~c,(n)?[1],1}+{@a,b,n*c![1],1};A[1];");
    // A wait's rate is given, a channel's item need not be.
    refused(9, "A[]={a,¶b};A[];");
    refused(9, "A[]={a,1*¶b};A[];");
    accepted("A[]={a,b![1],1};A[];");
    // A receive's own channel doesn't see the names it binds.
    refused(9, "A[]={a,(¶x)?[1](x),1};A[];");
    accepted("A[]={a,x?[1](x),1}.{a,(x)![1],1};A[];");
    refused(7, "A[]={a,¶abcdefghijklmnopq![1],1};A[];");
    refused(7, "A[]={a,¶1099511627776![1],1};A[];");
    refused(7, "A[]={a,-¶1099511627776,b![1],1};A[];");
}

#[test]
fn d5_channel_numbers() {
    // w is a number channel, d a channel name, n a number in A and a name in B.
    let mut bench = Bench::of("w=7;d=1.5;A[n]={w![1],1}.{d![1],1}.{n![1],1}.{z![1],1}.B[];B[]={n![1],1};A[3];");
    (0..5).for_each(|_| bench.take(0));
    assert_eq!(
        bench.short_pairs(),
        [[0, 3, 1, 1, 0], [0, 7, 1, 1, 0], [1, 0, 1, 1, 0], [1, 1, 1, 1, 0], [1, 2, 1, 1, 0]]
    );
    // By first appearance in the text, not by sum number: a continuation comes before a later branch.
    let mut bench = Bench::of("A[]={a![1],1}.{b![1],1}+{c![1],1};3*A[];");
    bench.take(0); // a
    bench.take(0); // b, which leaves the list
    bench.take(1); // c of the second
    assert_eq!(bench.short_pairs(), [[1, 0, 1, 1, 0], [1, 1, 1, 1, 0], [1, 2, 1, 1, 0]]);
    // A name used as a wait, a handshake channel, a check.
    let mut bench = Bench::of("A[]={c,0}+{@b?[1],1}+{~a?[1],0}+{c![1],1};A[];");
    bench.step(0);
    assert_eq!(bench.short_pairs(), [[1, 2, 1, 1, 0]]);
}

#[test]
fn d6_unused_locals() {
    let mut bench = Bench::of("A[n]={go,1};A[0];");
    bench.state[4] = 1;
    assert_eq!(bench.list().number, 11);
    bench.state[4] = 0;
    bench.state[3] = 1;
    assert_eq!(bench.list().number, 0);
}

#[test]
fn d7_counts_and_words() {
    let mut bench = Bench::of("A[]={go,1};0*A[];");
    assert_eq!(bench.state[0], 0);
    assert!(bench.entries().is_empty());
    for word in ["abs", "max", "min", "union", "inter"] {
        refused(5, &format!("¶{word}=1;A[]={{go,1}};A[];"));
        refused(5, &format!("A[]={{go,1}}.¶{word}[];A[];"));
        refused(5, &format!("A[]={{c?[1],¶{word}}};A[];"));
        refused(5, &format!("A[]={{c?[1](¶{word}),1}};A[];"));
    }
    // Three of them can begin the second item of a channel.
    for word in ["abs", "max", "min"] {
        refused(5, &format!("A[]={{go,{word}¶}};A[];"));
    }
    refused(5, "A[]={go,¶union};A[];");
    refused(5, "A[]={go,¶inter};A[];");
}

#[test]
fn d8_shared_names() {
    accepted("A[B]={B![1],1}.B[B]+{A,1};B[A]={go,A}.A[A];A[1];");
    accepted("A[]={c?[1](x),1}.{go,x}+{d?[1](x),1}.{go,x};A[];");
    accepted("A[]={x![1],1}.{c?[1](x),1}.{x![x],1};A[];");
    accepted("A=1;A[]={go,1};A[];");
    accepted("A[]={x?[1](x),1};A[];");
    accepted("A[]={c?[1](x),1}.({go,x}||{go,x});B[x]={go,x};A[];");
    refused(8, "x=1;A[¶x]={go,1};A[1];");
    refused(8, "x=1.5;A[]={c?[1](¶x),1};A[];");
    refused(8, "A[x,¶x]={go,1};A[1,1];");
    refused(8, "A[x]={c?[1](¶x),1};A[1];");
    refused(8, "A[]={c?[1,2](x,¶x),1};A[];");
    refused(8, "A[]={c?[1](x),1}.({go,1}||{d?[1](¶x),1});A[];");
    refused(8, "x=1;y=1;¶x=1;A[]={go,1};A[];");
    refused(8, "A[]={go,1};B[]={go,1};¶A[x]={go,1};A[];");
}

#[test]
fn d9_first_in_the_text() {
    refused(7, "x=¶9999999999999;A[]={abcdefghijklmnopq,1};A[];");
    refused(8, "x=1;A[¶x]={go,1};A[]={go,1};A[1];");
    refused(8, "x=1;A[]={go,1};¶A[]={c?[1](x),1};A[];");
    refused(9, "A[]={go,¶x}.B[];A[1];");
    refused(9, "A[]={c?[1]¶(y,z),x}.B[];A[1];");
    refused(9, "A[]={c?[¶q](y,z),x}.B[];A[1];");
    refused(9, "A[]={go,1}.({go,1}||¶B[])+{go,x};A[1];");
    // The continuation of the first branch stands before the second branch.
    refused(9, "A[]={go,1}.{go,1}.{go,¶y}+{go,x};A[];");
    // Questions in order, wherever the faults stand.
    refused(7, "A[]={go,x};A[]={go,¶9999999999999};A[];");
    refused(8, "A[]={go,x};¶A[]={go,1};A[];");
}

#[test]
fn d12_the_wrong_number_of_values() {
    refused(9, "A[n]={go,1}.¶A[x,y];A[1];");
    refused(9, "A[n]={go,1}.¶A[];A[1];");
    refused(9, "A[n]={go,1}.A[n+¶x];A[1];");
    refused(9, "A[n]={go,1};¶A[];");
    refused(9, "A[n]={go,1};A[1]||2*¶A[1,2];");
    refused(9, "A[n]={go,1};A[1]||¶B[];");
    refused(9, "A[]={go,1};¶A[1];");
    refused(9, "B=1;A[]={go,1}.¶B[];A[];");
    accepted("A[]={go,1}.B[];B[]={go,1}.A[];A[];");
}

#[test]
fn names_under_9() {
    refused(9, "g=1.5;A[]={c![¶g],1};A[];");
    refused(9, "g=1.5;A[]={go,1*¶g};A[];");
    refused(9, "g=1.5;A[]=[1<¶g]->{go,1};A[];");
    refused(9, "g=1.5;A[]={c?[1..¶g],1};A[];");
    refused(9, "g=1.5;A[]={go,1}.B[¶g];B[n]={go,1};A[];");
    refused(9, "g=1.0;A[]={g+1![1],1};A[];".replace("{g", "{¶g").as_str());
    accepted("g=1.5;A[]={go,g}+{g![1],g*2};A[];");
    // A receive's own rate and sets don't see the names it binds; what follows does.
    refused(9, "A[]={c?[1](x),¶x};A[];");
    refused(9, "A[]={c?[1](x),1*¶x};A[];");
    refused(9, "A[]={c?[1..¶x](x),1};A[];");
    refused(9, "A[]={c?[1](x),1}+{go,¶x};A[];");
    refused(9, "A[]={c?[1](x),1}.{go,1}||{go,¶x};A[];");
    refused(9, "A[n]={go,1};B[]={go,¶n};B[];");
    accepted("A[]={c?[1](x),1}.[x>0]->{x![x],x*x}.(A[]||({go,x}||B[x]));B[n]={go,1};A[];");
    refused(9, "A[]={c![abs(max(1,min(2,(¶q))))],1};A[];");
}

#[test]
fn d13_question_5_sees_every_token() {
    refused(5, &format!("A[]={{c![1{}],1}};A[];¶;", "+1".repeat(4_000)));
}

#[test]
fn d14_words_in_actions() {
    refused(5, "A[]={abs¶,1};A[];");
    refused(5, "A[]={¶union,1};A[];");
    refused(5, "A[]={max¶,1};A[];");
    refused(5, "A[]={¶inter,1};A[];");
}

#[test]
fn d15_scale_and_product() {
    assert_eq!(rate_of("", "100001*0"), None);
    assert_eq!(rate_of("", "0*-5"), Some(0));
    assert_eq!(rate_of("", "-0.0"), Some(0));
    assert_eq!(rate_of("", "-0.0*-5"), Some(0));
    assert_eq!(rate_of("", "-1*-1"), None);
    assert_eq!(rate_of("", "0*(1/0)"), None);
}

#[test]
fn d16_far_more_than_256() {
    let sums = vec!["{go,1}"; 300].join("||");
    let calls = vec!["B[]"; 300].join("||");
    let mut bench = Bench::of(&format!("A[]={{go,1}}.({calls});B[]={sums};A[];"));
    assert_eq!(bench.step(0).number, 18);
    let mut bench = Bench::of(&format!("A[]={{go,1}}.({calls}||C[1/0]);B[]={sums};C[n]={{go,1}};A[];"));
    assert_eq!(bench.step(0).number, 17);
}

#[test]
fn d17_bytes_in_comments() {
    assert_eq!(answer_to(b"// \x80\nA[]={go,1};A[];"), (3, 3));
}

// Rules of 01.

#[test]
fn sums_are_numbered_by_first_token() {
    let text = "A[]={a,1}.{b,1}.({c,1}+{d,1}.{e,1}||{f,1})+{g,1}.{h,1}||{i,1};B[]={j,1};B[]||A[];";
    // 0 a g, 1 b, 2 c d, 3 e, 4 f, 5 h, 6 i, 7 j
    let mut bench = Bench::of(text);
    assert_eq!(bench.processes(0), [[7], [0], [6]]);
    bench.take(1);
    assert_eq!(bench.processes(0), [[7], [1], [6]]);
    bench.take(1);
    assert_eq!(bench.processes(0), [[7], [2], [4], [6]]);
    bench.take(2);
    assert_eq!(bench.processes(0), [[7], [3], [4], [6]]);
    bench.take(0);
    assert_eq!(bench.processes(0), [[3], [4], [6]]);
    let mut bench = Bench::of(text);
    bench.take(2);
    assert_eq!(bench.processes(0), [[7], [5], [6]]);
}

#[test]
fn locals_and_bindings() {
    let mut bench = Bench::of("A[n,m]={c![n,m],1}.{c?[0..9,0..9](x,y),1}.({d![x+y],1}||A[y,x]);A[3,4];");
    bench.take(0);
    assert_eq!(bench.short_pairs(), [[1, 0, 2, 3, 4]]);
    assert_eq!(bench.processes(2), [[1, 3, 4]]);
    bench.take(0);
    assert_eq!(bench.processes(4), [[2, 3, 4, 3, 4], [0, 4, 3, 0, 0]]);
    bench.take(0);
    assert_eq!(bench.short_pairs(), [[1, 0, 2, 3, 4], [1, 1, 1, 7, 0]]);
    assert_eq!(bench.processes(2), [[0, 4, 3]]);
}

#[test]
fn a_binding_receive_takes_the_chosen_pair() {
    let mut bench = Bench::of("A[]={5?[0..9](x),1}.A[]+{5?[0..9](x),1}.{go,x};A[];");
    bench.state[1] = 3;
    bench.set_short_pair(0, [0, 5, 1, 2, 0]);
    bench.set_short_pair(1, [0, 5, 1, 4, 0]);
    bench.set_short_pair(2, [0, 5, 2, 4, 0]);
    let entries = bench.entries();
    assert_eq!(entries.iter().map(|entry| (entry[2], entry[5])).collect::<Vec<_>>(), [(0, 0), (0, 1), (1, 0), (1, 1)]);
    bench.take(3);
    assert_eq!(bench.processes(1), [[1, 4]]);
    assert_eq!(bench.short_pairs().len(), 3);
}

#[test]
fn lists_match_at_equal_length_only() {
    let mut bench = Bench::of("A[]={c?[0..9],1}+{c?[0..9,0..9],2}+{~c?[0..9],3}+{~c?[0..9,0..9],4};A[];");
    bench.state[1] = 1;
    bench.set_short_pair(0, [1, 0, 2, 1, 1]);
    let rates = |bench: &mut Bench| bench.entries().iter().map(|entry| entry[6] / 100_000_000).collect::<Vec<_>>();
    assert_eq!(rates(&mut bench), [2, 3]);
    bench.set_short_pair(0, [1, 0, 1, 1, 0]);
    assert_eq!(rates(&mut bench), [1, 4]);
    let mut bench = Bench::of("S[]={@c![1,1],1}+{@c![1],1};R[]={@c?[1],1}+{@c?[1,1],1};S[]||R[];");
    assert_eq!(bench.entries(), [[7, 0, 0, 1, 1, 0, 100_000_000], [7, 0, 1, 1, 0, 0, 100_000_000]]);
}

#[test]
fn names_and_numbers_are_different_channels() {
    let mut bench =
        Bench::of("A[]={0?[1],1}+{c?[1],2}+{@0?[1],3}+{@c?[1],4};B[]={@0![1],1};C[]={@c![1],1};A[]||B[]||C[];");
    bench.state[1] = 1;
    bench.set_short_pair(0, [1, 0, 1, 1, 0]);
    assert_eq!(
        bench.entries(),
        [[4, 0, 1, 0, 0, 0, 200_000_000], [7, 1, 0, 0, 2, 0, 300_000_000], [7, 2, 0, 0, 3, 0, 400_000_000]]
    );
}

#[test]
fn handshakes_touch_no_pair_and_replace_both() {
    let text = "S[n]={@c![n],1}.(S[n+1]||{s,1});R[]={@c?[0..9](x),1}.({r,x}||R[]);";
    let mut bench = Bench::of(&format!("{text}S[1]||R[];"));
    bench.take(0);
    // 0 S, 1 s, 2 R, 3 r
    assert_eq!(bench.processes(1), [[0, 2], [1, 1], [3, 1], [2, 0]]);
    assert!(bench.short_pairs().is_empty());
    let mut bench = Bench::of(&format!("{text}R[]||S[1];"));
    bench.take(0);
    assert_eq!(bench.processes(1), [[3, 1], [2, 0], [0, 2], [1, 1]]);
    // A beacon isn't heard by a handshake receive, nor the other way round.
    let mut bench = Bench::of("A[]={c![1],1}+{@c![1],1};B[]={c?[1],1};A[]||B[];");
    assert_eq!(bench.entries(), [[2, 0, 0, 0, 0, 0, 100_000_000]]);
}

#[test]
fn gates() {
    let open = |gate: &str| {
        let mut bench = Bench::of(&format!("A[n]=[{gate}]->{{go,1}};A[3];"));
        let count = bench.entries().len();
        count == 1
    };
    assert!(open("n==3") && !open("n!=3") && open("n<=3") && open("n>=3") && !open("n<3") && !open("n>3"));
    assert!(!open("~n==3") && open("~n<3"));
    assert!(open("n==3 | n==4 & n==5"));
    assert!(!open("n==4 & n==3 | n==5"));
    assert!(open("n==4 & n==3 | n==3"));
    assert!(open("~n==4 & n-1<n"));
    // A closed process stays in the list.
    let mut bench = Bench::of("A[]=[1>2]->{go,1};B[]={go,1}.B[];A[]||B[]||A[];");
    assert_eq!(bench.entries(), [[1, 1, 0, 0, 0, 0, 100_000_000]]);
    bench.take(0);
    assert_eq!(bench.processes(0), [[0], [1], [0]]);
}

#[test]
fn draws() {
    let mut bench = Bench::of("A[]={a,0}+{b,0.0001}+{c,0}+{d,0.0002};A[];");
    let start = bench.state.clone();
    for (draw, chosen) in [(0, 1), (9_999, 1), (10_000, 3), (29_999, 3)] {
        bench.state = start.clone();
        let answer = bench.step(draw);
        assert_eq!((answer.number, answer.chosen, answer.count, answer.total), (0, chosen, 4, 30_000));
    }
    bench.state = start;
    assert_eq!(bench.step(30_000).number, 16);
}

#[test]
fn an_accepted_step_leaves_the_listing_it_chose_from() {
    let mut bench = Bench::of("A[]={a,1}.B[];B[]={b,2};A[];");
    let answer = bench.step(5);
    assert_eq!(bench.filled(answer.count), [[1, 0, 0, 0, 0, 0, 100_000_000]]);
    assert_eq!(bench.entries(), [[1, 0, 0, 0, 0, 0, 200_000_000]]);
}
