//! Small models for searches: few entries at a time, waits some steps away, refusals here and there.

use crate::generate::{lent, some_spoilt_search, some_step, some_stored, Call, Depth, Random, RIGHT};
use crate::pieces::COUNTED;

/// The wait that is some steps away, one that is on the way, and others that some models have.
const WAITS: [&str; 9] = ["go", "go", "go", "go", "step", "skip", "trap", "idle", "more"];
/// Names that no wait has: none, a beginning, one with more, a channel, 17 bytes, and bytes that no text has.
const OTHERS: [&[u8]; 9] =
    [b"", b"", b"g", b"go ", b"GO", b"h", b"abcdefghijklmnopq", b"abcdefghijklmnopqrstuvwxyz", b"\xff\0"];

/// Runs that a search walks, at most, but for those of depth 1.
const FEW: usize = 80;
const MANY: usize = 300;
/// The same of one that is carried on by one run after the other.
const SINGLY: usize = 16;

/// What stands beside the walker, so that a step of it is refused.
#[derive(Clone, Copy, PartialEq, Eq)]
enum Beside {
    Nobody,
    /// Processes up to the limit or one below it: a fork gives 18.
    Crowd,
    /// 992 entries of weight zero: two processes more give 13.
    Handshakes,
    /// A total of 8 times 10^18: two processes more give 14.
    Rates,
}

/// A model whose walker `W` counts its steps up to a goal, where it can `go`.
pub fn maze(random: &mut Random) -> Vec<u8> {
    let goal = random.between(0, 7);
    let beside = match random.below(12) {
        0 => Beside::Crowd,
        1 => Beside::Handshakes,
        2 => Beside::Rates,
        _ => Beside::Nobody,
    };
    let mut branches = vec![
        format!("[n<{goal}]->{{step,1}}.W[n+1]"),
        format!("[n=={goal}]->{{go,{}}}.W[n]", random.pick(&["1", "0.5"])),
    ];
    for _ in 0..random.below(4) {
        branches.push(branch(random, goal));
    }
    if beside != Beside::Nobody {
        branches.push(last_straw(random, goal, beside));
    }
    for place in 1..branches.len() {
        branches.swap(place, random.below(place + 1));
    }
    let system = match beside {
        Beside::Nobody => (*random.pick(&["W[0]", "W[0]", "W[0]||P[]", "W[0]||W[1]", "P[]||W[0]"])).to_string(),
        Beside::Crowd => format!("W[0]||{}*I[]", random.pick(&[254, 255])),
        Beside::Handshakes => "W[0]||31*S[]||32*R[]".to_string(),
        Beside::Rates => "W[0]||8*T[]||U[]".to_string(),
    };
    let others = "I[]={idle,0};P[]={@h?[0..9](m),1}.W[m];S[]={@d![1],0};R[]={@d?[1],1};\
                  T[]={@e![1],100000};U[]={@e?[1],100000};";
    format!("W[n]={};{others}{system};", branches.join("+")).into_bytes()
}

/// One way more that the walker can take at some place.
fn branch(random: &mut Random, goal: i64) -> String {
    let at = random.between(0, goal);
    let way = match random.below(15) {
        0 | 1 => "{go,0}.W[0]".to_string(),
        // 12 and 17 where it stands; of weight zero it isn't taken.
        2 => format!("{{trap,1*(1/(n-{at}))}}"),
        3 => format!("{{trap,1}}.W[1/(n-{at})]"),
        4 => format!("{{go,1}}.W[1/(n-{at})]"),
        5 => format!("{{go,0}}.W[1/(n-{at})]"),
        6 => "{step,1}.W[n+1]".to_string(),
        7 | 8 => "{skip,1}.W[n+2]".to_string(),
        9 => "{skip,1}.{go,1}".to_string(),
        // 19 where 256 pairs are lit.
        10 => "{5![n],1}.W[n+1]".to_string(),
        11 => "{5?[0..101](v),1}.W[min(v,n+2)]".to_string(),
        12 => "{~5?[n],1}.W[n+1]".to_string(),
        13 => "{@h![n+1],1}.W[n+1]".to_string(),
        _ => "{more,1}.(W[n+1]||{go,1})".to_string(),
    };
    format!("[n=={at}]->{way}")
}

/// The way that is refused, or whose end is, for what stands beside.
fn last_straw(random: &mut Random, goal: i64, beside: Beside) -> String {
    let at = random.between(0, goal.min(2));
    let more = match beside {
        Beside::Handshakes => "W[n+1]||S[]||S[]",
        Beside::Rates => "W[n+1]||T[]||T[]",
        Beside::Crowd | Beside::Nobody => "W[n+1]||I[]",
    };
    format!("[n=={at}]->{{more,1}}.({more})")
}

fn some_wait(random: &mut Random) -> Vec<u8> {
    if random.chance(80) {
        random.pick(&WAITS).as_bytes().to_vec()
    } else {
        random.pick(&OTHERS).to_vec()
    }
}

/// A list of calls that searches a maze with every depth and many names, from several states.
pub fn searches(random: &mut Random) -> Vec<Call> {
    let (text, lengths) = (maze(random), RIGHT);
    let mut calls = vec![Call::Open { text, lengths }];
    if random.chance(30) {
        calls.push(Call::Light { count: *random.pick(&[2, 255, 256, 256]), first: random.between(100, 101) });
    }
    for depth in 0..=9 {
        let depth = if (1..=8).contains(&depth) { Depth::Within(depth, FEW) } else { Depth::Exactly(depth) };
        calls.push(Call::Search { lengths, name: b"go".to_vec(), depth });
    }
    for _ in 0..8 {
        let (name, runs) = (some_wait(random), if random.chance(20) { MANY } else { FEW });
        let depth = Depth::Within(random.between(1, 12).min(8) as u64, runs);
        calls.push(lent(random, Call::Search { lengths, name, depth }));
        calls.push(if random.chance(70) { some_step(random) } else { some_stored(random) });
    }
    calls
}

/// The beginning of a search that walks so many runs at most, but for one of depth 1.
fn beginning(random: &mut Random, runs: usize) -> Call {
    let depth = Depth::Within(random.between(1, 12).min(8) as u64, runs);
    Call::Begin { lengths: RIGHT, name: some_wait(random), depth }
}

/// Such a search, carried on by some runs.
pub fn begun(random: &mut Random) -> [Call; 2] {
    let number = random.below(30) as u64;
    [beginning(random, FEW), Call::Carry { lengths: RIGHT, number }]
}

/// A list of calls that searches a maze in pieces: by one run, by some, by none, past the end, other calls in between.
pub fn in_pieces(random: &mut Random) -> Vec<Call> {
    let (text, lengths) = (maze(random), RIGHT);
    let mut calls = vec![Call::Open { text, lengths }];
    if random.chance(30) {
        calls.push(Call::Light { count: *random.pick(&[2, 255, 256, 256]), first: random.between(100, 101) });
    }
    for _ in 0..5 {
        let singly = random.chance(30);
        let begun = beginning(random, if singly { SINGLY } else { FEW });
        calls.push(lent(random, begun));
        let pieces = if singly { SINGLY + 2 } else { 2 + random.below(8) };
        for _ in 0..pieces {
            let number = if singly { 1 } else { *random.pick(&[0, 1, 2, 3, 5, 8, 20, 50, COUNTED - 4, COUNTED]) };
            calls.push(lent(random, Call::Carry { lengths, number }));
            match random.below(12) {
                0 => calls.push(some_step(random)),
                1 => calls.push(some_stored(random)),
                2 => calls.extend(some_spoilt_search(random)),
                _ => {}
            }
        }
    }
    calls
}
