//! Small models for runs: a walker that takes some steps and is then refused, each refusal in turn, or goes on.

use crate::clock::Clock;
use crate::generate::{some_clock, some_run, Call, Random, Word, RIGHT};
use crate::mazes::maze;
use crate::ran::EVENT;
use crate::EVENTS;

/// What stands beside the walker: nobody else, or what makes its last step the one too many.
const CROWD: &str = "||255*I[]";
const HANDSHAKES: &str = "||31*S[]||32*R[]";
const RATES: &str = "||8*T[]||U[]";
/// A handshake whose weight, 2^16, divides 2^64: no word is turned away.
const EVEN: &str = "||X[]";
/// Senders that go on, with a total of 6.2 times 10^18: a third of all words is turned away.
const SENDERS: &str = "||V[1]||6*V[5]||U[]";

/// The walker's way at its goal, and what stands beside it.
const ENDS: [(&str, &str); 13] = [
    ("{trap,1*(1/(n-GOAL))}", ""),
    ("{more,1}.(W[n+1]||S[]||S[])", HANDSHAKES),
    ("{more,1}.(W[n+1]||T[]||T[])", RATES),
    ("{stop,0}", ""),
    ("{stop,1}", ""),
    ("{trap,1}.W[1/(n-GOAL)]", ""),
    ("{more,1}.(W[n]||I[])", CROWD),
    ("{5![n],1}.W[n+1]", ""),
    ("{5![n],1}.W[n+1]", ""),
    ("{back,1}.W[0]", ""),
    ("{back,1}.W[0]", SENDERS),
    ("{@g?[1],0.0256}.W[n]", EVEN),
    ("{@g?[1],0.0256}.W[n-1]", EVEN),
];
/// The one that goes on and on by itself.
const ENDLESS: usize = 9;

/// A model whose walker `W` counts its steps up to a goal.
fn walk(random: &mut Random, which: usize) -> Vec<u8> {
    let (end, beside) = ENDS[which % ENDS.len()];
    let goal = random.between(0, 5);
    let step = *random.pick(&["1", "0.5", "3", "0.0001", "2*(n+1)", "100000"]);
    let other = *random.pick(&["", "", "+[n>0]->{back,0.25}.W[n-1]", "+{idle,0}", "+{5?[0..300](v),1}.W[n]"]);
    let end = end.replace("GOAL", &goal.to_string());
    let others = "I[]={idle,0};S[]={@d![1],0};R[]={@d?[1],1};T[]={@f![1],100000};U[]={@f?[1],100000}\
                  +{@e?[1..5],100000}.U[];V[m]={@e![m],20000*m}.V[m];X[]={@g![1],0.0256}.X[];";
    format!("W[n]=[n<{goal}]->{{step,{step}}}.W[n+1]+[n>={goal}]->{end}{other};{others}W[0]{beside};").into_bytes()
}

/// A list of calls that runs through a small model, mostly the walk of this number, again and again, mostly from its
/// start.
pub fn walks(random: &mut Random, which: usize) -> Vec<Call> {
    let (text, lengths) = (if random.chance(85) { walk(random, which) } else { maze(random) }, RIGHT);
    let start = || b"start".to_vec();
    let mut calls = vec![Call::Open { text, lengths }];
    if random.chance(60) {
        calls.push(Call::Light { count: *random.pick(&[2, 255, 256, 256]), first: random.between(100, 101) });
    }
    calls.push(Call::Save { lengths, name: start() });
    for _ in 0..12 {
        let timed = random.chance(20);
        if timed {
            calls.push(Call::SetClock(some_clock(random)));
        }
        if random.chance(20) {
            calls.push(Call::Fill { number: random.number() });
        }
        calls.extend([some_run(random), Call::List { lengths }]);
        if timed {
            calls.push(Call::SetClock(Clock::default()));
        }
        if random.chance(80) {
            calls.push(Call::Return { lengths, name: start() });
        }
    }
    if which % ENDS.len() == ENDLESS {
        calls.push(longest_run(random));
    }
    calls
}

/// A run with more words than the program `calls` has room for events.
fn longest_run(random: &mut Random) -> Call {
    let words = (0..EVENTS / EVENT + 20).map(|_| Word::Exactly(random.number())).collect();
    let waiting = [7, 7].repeat(EVENTS / EVENT + 10);
    Call::Run { lengths: RIGHT, words, waiting, limit: u64::MAX }
}
