//! Texts that random models seldom are: very long lists of each kind, and very many names.

use second::generate::Random;

/// Bytes of the longest text, and tokens of the longest that question 6 lets pass.
const BYTES: usize = 16_384;
const TOKENS: usize = 4_096;

/// A text with one list in it: what stands before, a part that repeats, what stands after.
struct List {
    before: &'static str,
    part: &'static str,
    after: &'static str,
}

const fn list(before: &'static str, part: &'static str, after: &'static str) -> List {
    List { before, part, after }
}

/// One for each place of the grammar where something may repeat.
const LISTS: [List; 25] = [
    list("A[]={c![1", "+1", "],1};A[];"),
    list("A[]={c![1", "*1", "],1};A[];"),
    list("A[]={c![1", "-(1)", "],1};A[];"),
    list("A[]={a,1", "+1", "![1],1};A[];"),
    list("A[]={a,1", "*1", ",b?[1],1};A[];"),
    list("A[]={a,1*1", "/1", "};A[];"),
    list("A[]={a,1}", ".{a,1}", ";A[];"),
    list("A[]={a,1}", ".[1<2]->{a,1}", ";A[];"),
    list("A[]=[1<2", "&1<2", "]->{a,1};A[];"),
    list("A[]=[1>2", "|~1<2", "]->{a,1};A[];"),
    list("A[]={c?[1", "\\1", "],1};A[];"),
    list("A[]={c?[1..2", " union 1..2", "](x),1};A[];"),
    list("A[]={c?[1", ",1", "],1};A[];"),
    list("A[]={c?[1](x", ",x", "),1};A[];"),
    list("A[]={a,1}.A[1", ",1", "];A[];"),
    list("A[]={a,1};A[1", ",1", "];"),
    list("A[n", ",n", "]={a,1};A[];"),
    list("v=1;", "v=1;", "A[]={a,1};A[];"),
    list("A[]={a,1};", "A[]={a,1};", "A[];"),
    list("A[]={a,1}", "+{a,1}", ";A[];"),
    list("A[]={a,1}", "||{a,1}", ";A[];"),
    list("A[]={a,1};A[]", "||A[]", ";"),
    list("A[]={a,1};A[]", "||0*A[]", ";"),
    list("A[]={a,1}.(A[]", "||A[]", ");A[];"),
    list("A[]={a,1}.({a,1}", "||{b,1}.A[]", ");A[];"),
];

/// How many kinds of long lists there are.
pub const LONG: usize = LISTS.len();

impl List {
    fn text(&self, times: usize) -> Vec<u8> {
        [self.before, &self.part.repeat(times), self.after].concat().into_bytes()
    }

    /// The most parts for which the text has so many tokens and bytes at most.
    fn most(&self, tokens: usize) -> usize {
        let count = |text: &str| second::tokens::split(text.as_bytes()).len();
        let by_tokens = (tokens - count(self.before) - count(self.after)) / count(self.part);
        let by_bytes = (BYTES - self.before.len() - self.after.len()) / self.part.len();
        by_tokens.min(by_bytes)
    }
}

/// A text with one very long list: at the limit of tokens, just past it, or of all bytes.
pub fn long(random: &mut Random, which: usize) -> Vec<u8> {
    let list = &LISTS[which];
    let times = match random.below(4) {
        0 => list.most(BYTES),
        1 => list.most(TOKENS) + 1,
        2 => list.most(TOKENS),
        _ => random.below(list.most(TOKENS)),
    };
    list.text(times)
}

/// The longest text with a list of this kind: what needs most stack.
pub fn longest(which: usize) -> Vec<u8> {
    LISTS[which].text(LISTS[which].most(BYTES))
}

/// Bytes of a name, at most.
const NAME: usize = 16;
/// Branches of a sum, at most.
const BRANCHES: usize = 16;

/// A model with some hundreds of names, many of them alike at the front, most of them channels.
pub fn many_names(random: &mut Random) -> Vec<u8> {
    let mut names: Vec<String> = vec!["c".to_string(), "abs_".to_string()];
    for _ in 0..random.between(2, 400) {
        let like = random.pick(&names).clone();
        names.push(alike(random, like));
    }
    let mut text = String::new();
    for number in 0..random.below(40) {
        // Two alike are refused with 8, so most variables have names of their own.
        let name = if random.chance(97) { format!("v{number}") } else { random.pick(&names).clone() };
        let value = *random.pick(&["0.5", "2", "-1"]);
        text += &format!("{name} = {value};\n");
    }
    for definition in ["A", "B"] {
        let sums: Vec<String> = (0..random.between(1, 10)).map(|_| sum(random, &names)).collect();
        text += &format!("{definition}[n] = {};\n", sums.join(" || "));
    }
    (text + "A[1] || 2*B[0];").into_bytes()
}

/// A name that differs little from another.
fn alike(random: &mut Random, mut name: String) -> String {
    let letter = *random.pick(&["a", "b", "A", "_", "0", "9", "z"]);
    match random.below(3) {
        _ if name.len() < 2 => name += letter,
        0 if name.len() < NAME => name += letter,
        1 if name.len() < NAME => name.insert_str(1 + random.below(name.len()), letter),
        _ => {
            let place = 1 + random.below(name.len() - 1);
            name.replace_range(place..place + 1, letter);
        }
    }
    name
}

fn sum(random: &mut Random, names: &[String]) -> String {
    let branches: Vec<String> = (0..random.between(1, BRANCHES as i64))
        .map(|_| {
            let items = *random.pick(&[1, 1, 2, 3]);
            let channel: Vec<&str> = (0..items).map(|_| random.pick(names).as_str()).collect();
            let channel = channel.join(",");
            let action = match random.below(8) {
                0..=3 => format!("{channel}![n]"),
                4 => format!("{channel}#[1]"),
                5 => format!("{channel}?[0..1]"),
                6 => format!("@{channel}![n]"),
                _ => format!("@{channel}?[0..1]"),
            };
            let after = *random.pick(&["", "", ".A[n]", ".B[0]"]);
            format!("{{{action},1}}{after}")
        })
        .collect();
    branches.join(" + ")
}
