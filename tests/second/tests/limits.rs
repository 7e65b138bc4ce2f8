//! Both ends of every limit.

mod common;

use common::*;
use second::state::{FIRST_PAIR, PAIR, PROCESS};
use second::{Answer, STATE};

#[test]
fn the_numbers_of_a_state() {
    assert_eq!((PROCESS, PAIR, FIRST_PAIR, STATE), (10, 10, 2_562, 5_122));
}

#[test]
fn text_length() {
    let text = "A[]={go,1};A[];";
    accepted(&format!("{text}{}", " ".repeat(16_384 - text.len())));
    let long = format!("{text}{}", " ".repeat(16_385 - text.len()));
    assert_eq!(answer_to(long.as_bytes()), (2, 16_384));
    assert_eq!(answer_to(&[200; 16_385]), (2, 16_384));
    assert_eq!(answer_to(&[200; 100_000]), (2, 16_384));
    assert_eq!(answer_to(&[200; 16_384]), (3, 0));
}

#[test]
fn bytes() {
    for byte in 0..=255u8 {
        let mut text = b"A[]={go,1};A[];//".to_vec();
        text.push(byte);
        let allowed = (32..=126).contains(&byte) || [9, 10, 13].contains(&byte);
        assert_eq!(answer_to(&text), if allowed { (0, 0) } else { (3, 17) }, "{byte}");
    }
}

#[test]
fn brackets() {
    let text = |mark: &str, depth: usize| {
        format!("A[]={{c![{}{mark}{}1{}],1}};A[];", "(".repeat(24), "(".repeat(depth - 24), ")".repeat(depth))
    };
    accepted(&text("", 24));
    refused(4, &text("¶", 25));
    refused(4, &text("¶", 30));
    // Before question 5, outside comments, and a lone `)` counts nothing.
    refused(4, &format!("){}))){}¶((", "(".repeat(2), "(".repeat(24)));
    refused(5, &format!("A[]={{go,1}};A[];¶){}", "(".repeat(24)));
    accepted(&format!("A[]={{go,1}};A[];//{}", "(".repeat(30)));
    refused(4, &format!("//((\n/ /{}¶(", "(".repeat(24)));
    // 24 at a time, often.
    let group = format!("{}A[]{}", "(".repeat(24), ")".repeat(24));
    accepted(&format!("A[]={{go,1}}.{group}+{{go,1}}.{group};A[];"));
}

#[test]
fn token_count() {
    // 18 tokens, two for each `+1`, one for a `-`.
    let text = |minus: &str, plus: usize| format!("A[]={{c![{minus}1{}],1}};A[];", "+1".repeat(plus));
    let count = |text: &str| second::tokens::split(text.as_bytes()).len();
    let most = text("", (4_096 - 18) / 2);
    assert_eq!(count(&most), 4_096);
    accepted(&most);
    let more = text("-", (4_096 - 18) / 2);
    assert_eq!(count(&more), 4_097);
    assert_eq!(answer_to(more.as_bytes()), (6, more.len() as u64 - 1));
    // 6 after 5 and before 7.
    let far = format!("{}A[]={{c![1{}],1}};A[];", "x=9999999999999;", "+1".repeat(3_000));
    assert_eq!(answer_to(far.as_bytes()).0, 6);
    let bad = format!("A[]={{c![1{}],1}};A[]", "+1".repeat(3_000));
    assert_eq!(answer_to(bad.as_bytes()), (5, bad.len() as u64));
    // 16,384 tokens.
    refused(5, &format!("¶{}", ";".repeat(16_384)));
}

#[test]
fn names() {
    let long = "abcdefghijklmnop";
    accepted(&format!("A[]={{{long},1}};A[];"));
    refused(7, &format!("A[]={{¶{long}q,1}};A[];"));
    accepted(&format!("{long}=1;A[]={{go,1}};A[];"));
    refused(7, &format!("¶{long}q=1;A[]={{go,1}};A[];"));
    refused(7, &format!("¶{long}q[]={{go,1}};A[];"));
    refused(7, &format!("A[]={{go,1}};¶{long}q[];"));
    refused(7, &format!("A[¶{long}q]={{go,1}};A[1];"));
    refused(7, &format!("A[]={{¶{long}q![1],1}};A[];"));
    refused(7, &format!("A[]={{c?[1](¶{long}q),1}};A[];"));
    refused(7, &format!("A[]={{c?[1],¶{long}q}};A[];"));
    refused(7, &format!("A[]={{c?[1],1}}.¶{long}q[];A[];"));
}

#[test]
fn whole_numbers() {
    for text in [
        "x=#;A[]={go,1};A[];",
        "A[]={c![#],1};A[];",
        "A[]={go,#};A[];",
        "A[n]={go,1};A[#];",
        "A[]={go,1*#};A[];",
        "A[]={c?[#..#],1};A[];",
        "A[]=[1<#]->{go,1};A[];",
        "A[]={#?[1],1};A[];",
    ] {
        let with = |number: &str| text.replace('#', number);
        accepted(&with("1099511627775"));
        accepted(&with("-1099511627775"));
        accepted(&with("-0"));
        accepted(&with("0000000000000000000000001"));
        let mark = |number: &str| text.replacen('#', number, 1).replace('#', "0");
        for beyond in ["1099511627776", "9999999999999", "18446744073709551617", "0099999999999999999999999999999999"] {
            refused(7, &mark(&format!("¶{beyond}")));
            refused(7, &mark(&format!("- ¶{beyond}")));
        }
    }
    // A `-` that is a sum's sign isn't the number's.
    refused(7, "A[]={c![1-¶1099511627776],1};A[];");
    accepted("A[]={c![-1--1099511627775],1};A[];");
}

#[test]
fn decimals() {
    for text in ["x=#;A[]={go,1};A[];", "A[]={go,#};A[];", "A[]={go,#*2};A[];"] {
        let with = |number: &str| text.replace('#', number);
        accepted(&with("123456.1234"));
        accepted(&with("000000.0000"));
        accepted(&with("-999999.9999"));
        refused(7, &with("¶1234567.1"));
        refused(7, &with("¶0000001.1"));
        refused(7, &with("¶1.12345"));
        refused(7, &with("-¶1.00000"));
    }
}

#[test]
fn counts() {
    accepted("A[]={go,1};256*A[];");
    refused(7, "A[]={go,1};¶257*A[];");
    refused(7, "A[]={go,1};A[]||¶99999999999999999999*A[];");
    accepted("A[]={go,1};0000256*A[];");
    refused(10, "A[]={go,1}; ¶A[]||256*A[];");
    accepted("A[]={go,1}; 0*A[]||256*A[];");
    accepted("A[]={go,1}||{go,1};128*A[];");
    refused(10, "A[]={go,1}||{go,1};¶129*A[];");
    refused(10, "A[]={go,1}||{go,1};¶256*A[]||256*A[]||256*A[];");
    assert_eq!(Bench::of("A[]={go,1}||{go,1};127*A[]||A[];").state[0], 256);
}

#[test]
fn lists() {
    let variables = |many: usize, mark: &str| {
        let mut text = String::new();
        for number in 0..many {
            let mark = if number == 64 { mark } else { "" };
            text.push_str(&format!("{mark}v{number}=1;"));
        }
        text + "A[]={go,1};A[];"
    };
    accepted(&variables(64, ""));
    refused(7, &variables(65, "¶"));
    refused(7, &variables(70, "¶"));

    let definitions = |many: usize, mark: &str| {
        let mut text = String::new();
        for number in 0..many {
            let mark = if number == 64 { mark } else { "" };
            text.push_str(&format!("{mark}D{number}[]={{go,1}};"));
        }
        text + "D0[];"
    };
    accepted(&definitions(64, ""));
    refused(7, &definitions(65, "¶"));

    accepted("A[a,b,c,d,e,f]={go,1};A[1,2,3,4,5,6];");
    refused(7, "A[a,b,c,d,e,f,¶g]={go,1};A[1,2,3,4,5,6,7];");
    refused(7, "A[a,b,c,d,e,f,¶g,h,i,j]={go,1};A[1,2,3,4,5,6,7];");

    let branches = |many: usize, mark: &str, gate: &str| {
        let parts: Vec<String> =
            (0..many).map(|number| format!("{}{gate}{{go,1}}", if number == 16 { mark } else { "" })).collect();
        parts.join("+")
    };
    for gate in ["", "[1<2]->"] {
        accepted(&format!("A[]={}||{};A[];", branches(16, "", gate), branches(16, "", gate)));
        refused(7, &format!("A[]={};A[];", branches(17, "¶", gate)));
        refused(7, &format!("A[]={{go,1}}.({});A[];", branches(17, "¶", gate)));
    }
    accepted(&format!("A[]={{go,1}}.({})+{};A[];", branches(16, "", ""), branches(15, "", "")));
}

#[test]
fn locals_together() {
    accepted("A[a,b,c,d,e,f]={c?[1,2](g,h),1}.{go,h};A[1,2,3,4,5,6];");
    refused(7, "A[a,b,c,d,e,f]={c?[1](g),1}.{c?[1,2](h,¶i),1};A[1,2,3,4,5,6];");
    refused(
        7,
        "A[a,b,c,d,e,f]={c?[1](g),1}.{go,1}.(A[1,2,3,4,5,6]||{go,1}+{@c?[1](h),1}.{@c?[1](¶i),1});A[1,2,3,4,5,6];",
    );
    // Branches beside each other don't add up.
    accepted("A[a,b,c,d,e,f]={c?[1,2](g,h),1}+{c?[1,2](i,j),1}.({c?[1],1}||{go,1});A[1,2,3,4,5,6];");
    accepted("A[a,b,c,d,e,f]={c?[1](g),1}.({c?[1](h),1}||{c?[1](i),1});A[1,2,3,4,5,6];");
    let chain = |many: usize, mark: &str| {
        let parts: Vec<String> =
            (0..many).map(|number| format!("{{c?[1]({}x{number}),1}}", if number == 8 { mark } else { "" })).collect();
        format!("A[]={};A[];", parts.join("."))
    };
    accepted(&chain(8, ""));
    refused(7, &chain(9, "¶"));
    refused(7, &chain(12, "¶"));
    // 7 before 9: more names than sets count as locals.
    refused(7, "A[]={c?[1](a,b,c,d,e,f,g,h,¶i),1};A[];");
    refused(9, "A[]={c?[1]¶(a,b,c,d,e,f,g,h),1};A[];");
}

#[test]
fn values() {
    let (least, greatest) = (Some(-1_099_511_627_775), Some(1_099_511_627_775));
    assert_eq!(value_of("1099511627774+1"), greatest);
    assert_eq!(value_of("1099511627775+1"), None);
    assert_eq!(value_of("-1099511627774-1"), least);
    assert_eq!(value_of("-1099511627775-1"), None);
    assert_eq!(value_of("1099511627775+1-1"), None);
    assert_eq!(value_of("1099511627775+1099511627775"), None);
    assert_eq!(value_of("abs(-1099511627775)"), greatest);
    assert_eq!(value_of("max(-1099511627775,1099511627775)"), greatest);
    assert_eq!(value_of("min(-1099511627775,1099511627775)"), least);
    assert_eq!(value_of("max(1,1/0)"), None);
    assert_eq!(value_of("min(1/0,1)"), None);
    assert_eq!(value_of("0*(1/0)"), None);
    assert_eq!(value_of("10-3-2"), Some(5));
    assert_eq!(value_of("100/7/2*3"), Some(21));
    assert_eq!(value_of("-100/7/2*3"), Some(-24));
    assert_eq!(value_of("2+3*4-(5-1)*2"), Some(6));
    assert_eq!(value_of("1--1"), Some(2));
}

#[test]
fn products() {
    let (least, greatest) = (Some(-1_099_511_627_775), Some(1_099_511_627_775));
    assert_eq!(value_of("-1099511627775*-1"), greatest);
    assert_eq!(value_of("1099511627775*-1"), least);
    assert_eq!(value_of("1048575*1048577"), greatest);
    assert_eq!(value_of("-1048575*1048577"), least);
    assert_eq!(value_of("1048576*1048576"), None);
    assert_eq!(value_of("1048576*-1048576"), None);
    assert_eq!(value_of("549755813887*2"), Some(1_099_511_627_774));
    assert_eq!(value_of("549755813888*-2"), None);
    // Beyond 64 bits, and by their low bits in range again.
    assert_eq!(value_of("4294967296*4294967296"), None);
    assert_eq!(value_of("4294967297*4294967297"), None);
    assert_eq!(value_of("4294967297*-4294967297"), None);
    assert_eq!(value_of("1099511627775*1099511627775"), None);
    assert_eq!(value_of("-1099511627775*1099511627775*0"), None);
    assert_eq!(value_of("0*1099511627775*1099511627775"), Some(0));
}

#[test]
fn rate_range() {
    assert_eq!(rate_of("", "0"), Some(0));
    assert_eq!(rate_of("", "0.0001"), Some(1));
    assert_eq!(rate_of("", "-0.0001"), None);
    assert_eq!(rate_of("", "-1"), None);
    assert_eq!(rate_of("", "100000.0000"), Some(1_000_000_000));
    assert_eq!(rate_of("", "100001"), None);
    assert_eq!(rate_of("", "0.0001*1000000000"), Some(1_000_000_000));
    assert_eq!(rate_of("", "0.0001*1000000001"), None);
    assert_eq!(rate_of("", "1099511627775"), None);
    assert_eq!(rate_of("", "1099511627775*0"), None);
    refused(7, "A[]={go,¶1099511627776};A[];");
    // Scale times atom beyond 64 bits: 10^9 times 2^40.
    assert_eq!(rate_of("", "100000*1099511627775"), None);
    assert_eq!(rate_of("", "100000*-1099511627775"), None);
    // By its low 64 bits it would be in range.
    assert_eq!(rate_of("", "100000*18446744074"), None);
    assert_eq!(rate_of("", "0.0001*1099511627775"), None);
    assert_eq!(rate_of("", "0*1099511627775"), Some(0));
    assert_eq!(rate_of("", "1.5*3"), Some(45_000));
    assert_eq!(rate_of("", "012.050"), Some(120_500));
    assert_eq!(rate_of("w=3;", "w"), Some(30_000));
    assert_eq!(rate_of("w=3;d=0.5;", "d*w"), Some(15_000));
    assert_eq!(rate_of("w=-3;", "w"), None);
    assert_eq!(rate_of("w=-3;", "1*w"), None);
    assert_eq!(rate_of("d=-0.5;", "d"), None);
    assert_eq!(rate_of("d=-0.0;", "d"), Some(0));
    let local = |value: &str| listed(&format!("A[n]={{go,n}};A[{value}];")).0;
    assert_eq!(local("100000"), 0);
    assert_eq!(local("100001"), 12);
    assert_eq!(local("-1"), 12);
    assert_eq!(local("1099511627775"), 12);
    assert_eq!(local("-1099511627775"), 12);
}

#[test]
fn entries() {
    let text =
        |senders: usize, receivers: usize| format!("S[]={{@c![1],1}};R[]={{@c?[1],1}};{senders}*S[]||{receivers}*R[];");
    let mut bench = Bench::of(&text(32, 32));
    let entries = bench.entries();
    assert_eq!(entries.len(), 1_024);
    assert_eq!(entries[1_023], [7, 31, 0, 63, 0, 0, 100_000_000]);
    assert_eq!(Bench::of(&text(25, 41)).list(), Answer::refusal(13));
    assert_eq!(Bench::of(&text(41, 25)).list(), Answer::refusal(13));
    assert_eq!(Bench::of(&text(128, 128)).list(), Answer::refusal(13));
    // Binding receives: 256 pairs, 4 branches, and one more entry.
    let mut bench =
        Bench::of("A[]={c?[0..255](x),1}+{c?[0..255](x),1}+{c?[0..255](x),1}+{c?[0..255](x),1};B[]={go,1};A[]||B[];");
    bench.state[1] = 256;
    (0..256).for_each(|place| bench.set_short_pair(place, [1, 0, 1, place as i64, 0]));
    assert_eq!(bench.list(), Answer::refusal(13));
    bench.state[0] = 1;
    bench.set_process(1, &[]);
    let entries = bench.entries();
    assert_eq!(entries[1_023], [5, 0, 3, 0, 0, 255, 100_000_000]);
}

#[test]
fn total() {
    let text = |more: &str| format!("S[]={{@c![1],100000}};R[]={{@c?[1],100000}};B[]={{go,{more}}};9*S[]||R[]||B[];");
    let mut bench = Bench::of(&text("0"));
    assert_eq!(bench.list(), Answer { count: 10, total: 9_000_000_000_000_000_000, ..Answer::default() });
    let answer = bench.step(8_999_999_999_999_999_999);
    assert_eq!((answer.number, answer.chosen), (0, 8));
    let mut bench = Bench::of(&text("0"));
    assert_eq!(bench.step(9_000_000_000_000_000_000).number, 16);
    assert_eq!(Bench::of(&text("0.0001")).list(), Answer::refusal(14));
    // Far beyond 64 bits.
    let mut bench = Bench::of("S[]={@c![1],100000};R[]={@c?[1],100000};32*S[]||32*R[];");
    assert_eq!(bench.list(), Answer::refusal(14));
}
