//! Random models that live long, texts near the limits, damaged texts, and lists of calls.
//!
//! Everything comes from one small generator of numbers: the same seed gives the same texts and
//! calls.

use crate::clock::{Clock, MOST};
use crate::limits::{HIGHEST, LOWEST};
use crate::mazes;
use crate::model;
use crate::pieces::{self, COUNTED};
use crate::ran::EVENT;
use crate::saves;
use crate::state::{FIRST_PAIR, FIRST_PROCESS, PAIR, PROCESS};
use crate::syntax::ITEMS;
use crate::tokens::{self, Kind};
use crate::{EVENTS, LISTING, MODEL, REPORT, SAVES, SEARCH, STATE};

pub use crate::calls::{Buffer, Buffers, Call, Depth, Draw, Engine, Given, Lengths, Word, RIGHT, SECOND, SPARE};

// Random numbers.

/// SplitMix64.
#[derive(Clone, Debug)]
pub struct Random {
    state: u64,
}

impl Random {
    pub fn new(seed: u64) -> Random {
        Random { state: seed }
    }

    pub fn number(&mut self) -> u64 {
        self.state = self.state.wrapping_add(0x9E37_79B9_7F4A_7C15);
        let mut mixed = self.state;
        mixed = (mixed ^ (mixed >> 30)).wrapping_mul(0xBF58_476D_1CE4_E5B9);
        mixed = (mixed ^ (mixed >> 27)).wrapping_mul(0x94D0_49BB_1331_11EB);
        mixed ^ (mixed >> 31)
    }

    /// From 0 to below the end; 0 if the end is 0.
    pub fn below(&mut self, end: usize) -> usize {
        (self.number() % (end.max(1) as u64)) as usize
    }

    /// Both ends included.
    pub fn between(&mut self, low: i64, high: i64) -> i64 {
        low + (self.number() % (high - low + 1) as u64) as i64
    }

    pub fn chance(&mut self, percent: usize) -> bool {
        self.below(100) < percent
    }

    /// One of the list, which isn't empty.
    pub fn pick<'a, T>(&mut self, list: &'a [T]) -> &'a T {
        &list[self.below(list.len())]
    }
}

// Models that live long.

const WHOLE_NAMES: [&str; 4] = ["w", "lim", "Three", "_q"];
const DECIMAL_NAMES: [&str; 4] = ["g", "slow", "fast9", "_"];
const DEFINITION_NAMES: [&str; 6] = ["Lamp", "Post", "A", "B", "x", "Cell_2"];
/// Some are names of channels, waits and definitions too.
const LOCAL_NAMES: [&str; 12] = ["n", "m", "k", "a", "b", "i", "x", "y", "z", "pass", "A", "abcdefghijklmnop"];
const CHANNEL_NAMES: [&str; 5] = ["c", "pass", "d", "x", "g"];
const WAIT_NAMES: [&str; 5] = ["go", "tick", "n", "A", "c"];
const RATES: [&str; 9] = ["1", "2", "0.5", "1.25", "10", "0.0001", "3.1415", "007.50", "0"];

/// Values that locals and pairs keep to.
const SMALL: i64 = 9;

/// Writes tokens, and knows what the present place may use.
struct Writer<'a> {
    random: &'a mut Random,
    tokens: Vec<String>,
    wholes: Vec<&'static str>,
    decimals: Vec<&'static str>,
    /// Names and numbers of parameters.
    definitions: Vec<(&'static str, usize)>,
    /// The channels of this model, few of them, so that processes meet, each as its tokens.
    channels: Vec<String>,
    scope: Vec<&'static str>,
    /// Leaves every continuation at most one process (02, note 11)?
    steady: bool,
}

/// A legal model whose processes mostly go on.
pub fn lively(random: &mut Random) -> Vec<u8> {
    written(random, false)
}

/// The same, and no continuation leaves more than one process.
pub fn steady(random: &mut Random) -> Vec<u8> {
    written(random, true)
}

fn written(random: &mut Random, steady: bool) -> Vec<u8> {
    let mut writer = Writer {
        random,
        tokens: Vec::new(),
        wholes: Vec::new(),
        decimals: Vec::new(),
        definitions: Vec::new(),
        channels: Vec::new(),
        scope: Vec::new(),
        steady,
    };
    writer.model();
    let tokens = writer.tokens;
    spaced(random, &tokens)
}

/// One to three names and numbers with `,` between them.
fn some_channel(random: &mut Random) -> String {
    let items = *random.pick(&[1, 1, 2, 2, 3]);
    let mut item = || {
        let some: &[&str] = if random.chance(60) { &CHANNEL_NAMES } else { &["0", "1"] };
        *random.pick(some)
    };
    (0..items).map(|_| item()).collect::<Vec<_>>().join(" , ")
}

/// Tokens as a text, close together, or with blanks, lines and comments between them.
fn spaced(random: &mut Random, tokens: &[String]) -> Vec<u8> {
    let style = random.below(3);
    let mut text: Vec<u8> = Vec::new();
    for token in tokens {
        let touching = text.last().is_some_and(|&last| would_join(last, token.as_bytes()[0]));
        let gap = match style {
            0 if touching => " ",
            0 => "",
            1 => " ",
            _ => match random.below(30) {
                0 => "\t",
                1 => "\r\n",
                2 => " // (a comment) { \n",
                3 => " //\n",
                4..=12 => " ",
                _ if touching => "\n",
                _ => "",
            },
        };
        text.extend(gap.as_bytes());
        text.extend(token.as_bytes());
        if token == ";" && style < 2 {
            text.push(b'\n');
        }
    }
    if random.chance(10) {
        text.extend(b"// the end");
    }
    text
}

/// Could these two bytes be read as parts of one token?
fn would_join(last: u8, next: u8) -> bool {
    let word = |byte: u8| byte.is_ascii_alphanumeric() || byte == b'_';
    (word(last) && word(next))
        || (last == next && b"|./=".contains(&last))
        || (next == b'=' && b"<>!".contains(&last))
        || (last == b'-' && next == b'>')
}

impl Writer<'_> {
    /// Adds tokens that are parted by blanks.
    fn put(&mut self, tokens: &str) {
        self.tokens.extend(tokens.split(' ').map(str::to_string));
    }

    /// So many items with the sign between them.
    fn list(&mut self, count: usize, sign: &str, item: fn(&mut Self)) {
        for number in 0..count {
            if number > 0 {
                self.put(sign);
            }
            item(self);
        }
    }

    fn model(&mut self) {
        for name in WHOLE_NAMES {
            if self.random.chance(40) {
                self.wholes.push(name);
                let value = self.random.between(-3, SMALL);
                self.put(&format!("{name} ="));
                self.whole(value);
                self.put(";");
            }
        }
        for name in DECIMAL_NAMES {
            if self.random.chance(40) {
                self.decimals.push(name);
                let number = *self.random.pick(&["0.25", "1.5", "12.0", "0.0625", "100.0"]);
                self.put(&format!("{name} = {number} ;"));
            }
        }
        for _ in 0..*self.random.pick(&[1, 1, 2, 3]) {
            let channel = some_channel(self.random);
            self.channels.push(channel);
        }
        let count = *self.random.pick(&[1, 2, 3, 3, 4, 5]);
        let first = self.random.below(DEFINITION_NAMES.len());
        for number in 0..count {
            let name = DEFINITION_NAMES[(first + number) % DEFINITION_NAMES.len()];
            let parameters = *self.random.pick(&[0, 1, 1, 2, 2, 3, 6]);
            self.definitions.push((name, parameters));
        }
        for number in 0..count {
            self.definition(number);
        }
        let items = 1 + self.random.below(4);
        self.list(items, "||", Self::system_item);
        self.put(";");
    }

    fn whole(&mut self, value: i64) {
        if value < 0 {
            self.put("-");
        }
        self.put(&value.abs().to_string());
    }

    fn system_item(&mut self) {
        if self.random.chance(40) {
            let count = if self.random.chance(5) { "0" } else { *self.random.pick(&["1", "2", "2", "3", "5", "06"]) };
            self.put(&format!("{count} *"));
        }
        let (name, parameters) = self.definitions[self.random.below(self.definitions.len())];
        self.put(&format!("{name} ["));
        self.list(parameters, ",", |writer| {
            let value = writer.random.between(-3, SMALL);
            writer.whole(value);
        });
        self.put("]");
    }

    fn definition(&mut self, number: usize) {
        let (name, parameters) = self.definitions[number];
        self.put(&format!("{name} ["));
        self.scope.clear();
        self.new_locals(parameters);
        self.put("] =");
        let sums = if self.steady { 1 } else { *self.random.pick(&[1, 1, 1, 1, 2]) };
        self.list(sums, "||", |writer| writer.sum(0));
        self.put(";");
    }

    /// Names joined by `,` that are new here. There are enough for 8.
    fn new_locals(&mut self, count: usize) {
        for number in 0..count {
            if number > 0 {
                self.put(",");
            }
            let start = self.random.below(LOCAL_NAMES.len());
            for next in 0..LOCAL_NAMES.len() {
                let name = LOCAL_NAMES[(start + next) % LOCAL_NAMES.len()];
                if !self.scope.contains(&name) {
                    self.scope.push(name);
                    self.put(name);
                    break;
                }
            }
        }
    }

    fn sum(&mut self, depth: usize) {
        let branches = *self.random.pick(if depth == 0 { &[2, 3, 3, 4, 5] } else { &[1, 1, 1, 2, 3] });
        for branch in 0..branches {
            if branch > 0 {
                self.put("+");
            }
            // The first branch is often one that is always there.
            let always = branch == 0 && self.random.chance(if depth == 0 { 90 } else { 60 });
            self.prefix(depth, always);
        }
    }

    /// A guarded prefix with its continuation.
    fn prefix(&mut self, depth: usize, always: bool) {
        let scale = self.gate(always);
        self.put("{");
        let outside = self.scope.len();
        if always {
            let name = *self.random.pick(&WAIT_NAMES);
            // A low one: what else can happen does.
            let rate = *self.random.pick(&["0.1", "0.05", "0.5", "1"]);
            self.put(&format!("{name} , {rate}"));
        } else {
            self.action();
            self.put(",");
            self.rate(scale, outside);
        }
        self.put("}");
        self.continuation(depth, always);
        self.scope.truncate(outside);
    }

    /// Perhaps a gate. The result is a local that it keeps from being negative.
    fn gate(&mut self, always: bool) -> Option<&'static str> {
        if always || self.random.chance(70) {
            return None;
        }
        let mut local = None;
        self.put("[");
        if !self.scope.is_empty() && self.random.chance(30) {
            let name = self.scope[self.random.below(self.scope.len())];
            self.put(&format!("{name} >= 0"));
            local = Some(name);
        } else {
            self.relation();
            while self.random.chance(30) {
                let sign = *self.random.pick(&["&", "|"]);
                self.put(sign);
                self.relation();
            }
        }
        self.put("] ->");
        local
    }

    fn relation(&mut self) {
        if self.random.chance(20) {
            self.put("~");
        }
        self.free(1);
        let sign = *self.random.pick(&["<", "<=", ">", ">=", "==", "!="]);
        self.put(sign);
        self.small(1);
    }

    fn action(&mut self) {
        match self.random.below(20) {
            0 => {
                let name = *self.random.pick(&WAIT_NAMES);
                self.put(name);
            }
            1..=4 => {
                self.channel();
                self.put("!");
                self.values();
            }
            5 => {
                self.channel();
                self.put("#");
                self.values();
            }
            6..=10 => {
                self.channel();
                self.receive();
            }
            11 | 12 => {
                self.put("~");
                self.channel();
                self.put("? [");
                let sets = 1 + self.random.below(2);
                self.list(sets, ",", Self::set);
                self.put("]");
            }
            13..=15 => {
                self.put("@");
                self.channel();
                self.put("!");
                self.values();
            }
            _ => {
                self.put("@");
                self.channel();
                self.receive();
            }
        }
    }

    fn channel(&mut self) {
        if self.random.chance(80) {
            let channel = self.random.pick(&self.channels).clone();
            self.put(&channel);
        } else {
            let items = 1 + self.random.below(ITEMS);
            self.list(items, ",", Self::channel_item);
        }
    }

    fn channel_item(&mut self) {
        match self.random.below(4) {
            0 => self.small(1),
            1 => {
                let number = self.random.between(0, 1);
                self.whole(number);
            }
            2 => self.small_name(),
            _ => {
                let name = *self.random.pick(&CHANNEL_NAMES);
                self.put(name);
            }
        }
    }

    fn values(&mut self) {
        self.put("[");
        let count = *self.random.pick(&[1, 1, 1, 1, 2]);
        self.list(count, ",", |writer| writer.small(2));
        self.put("]");
    }

    fn receive(&mut self) {
        self.put("? [");
        let count = *self.random.pick(&[1, 1, 1, 1, 2]);
        self.list(count, ",", Self::set);
        self.put("]");
        if self.scope.len() + count <= 8 && self.random.chance(50) {
            self.put("(");
            self.new_locals(count);
            self.put(")");
        }
    }

    fn set(&mut self) {
        self.set_part();
        while self.random.chance(20) {
            let sign = *self.random.pick(&["\\", "union", "inter"]);
            self.put(sign);
            self.set_part();
        }
    }

    fn set_part(&mut self) {
        match self.random.below(6) {
            0 => self.small(1),
            1 => {
                self.small(1);
                self.put("..");
                self.small(1);
            }
            2 | 3 => self.put("0 .. 9"),
            _ => self.put("- 9 .. 9"),
        }
    }

    /// The names bound by the action itself, those past `outside`, aren't seen.
    fn rate(&mut self, scale: Option<&'static str>, outside: usize) {
        let inside = self.scope.split_off(outside);
        match scale {
            Some(local) if self.random.chance(50) => self.put(local),
            _ if !self.decimals.is_empty() && self.random.chance(30) => {
                let name = self.decimals[self.random.below(self.decimals.len())];
                self.put(name);
            }
            _ => {
                let number = *self.random.pick(&RATES);
                self.put(number);
            }
        }
        if self.random.chance(30) {
            self.put("* abs (");
            self.free(1);
            self.put(")");
        } else if self.random.chance(10) {
            self.put("* 2");
        }
        self.scope.extend(inside);
    }

    fn continuation(&mut self, depth: usize, always: bool) {
        match self.random.below(if depth < 3 { 100 } else { 75 }) {
            0..=6 if !always => {}
            0..=74 => {
                self.put(".");
                self.call();
            }
            75..=87 => {
                self.put(".");
                self.prefix(depth + 1, false);
            }
            _ => {
                self.put(".");
                self.group(depth + 1);
            }
        }
    }

    fn call(&mut self) {
        let (name, parameters) = self.definitions[self.random.below(self.definitions.len())];
        self.put(&format!("{name} ["));
        self.list(parameters, ",", |writer| writer.small(2));
        self.put("]");
    }

    fn group(&mut self, depth: usize) {
        self.put("(");
        let items = if self.steady { 1 } else { *self.random.pick(&[1, 1, 2, 2, 3]) };
        for item in 0..items {
            if item > 0 {
                self.put("||");
            }
            match self.random.below(10) {
                0..=3 => self.call(),
                4 if depth < 3 => self.group(depth + 1),
                _ if depth < 4 => self.sum(depth + 1),
                _ => self.call(),
            }
        }
        self.put(")");
    }

    /// An expression whose value lies from -9 to 9, as long as all locals do.
    fn small(&mut self, depth: usize) {
        match self.random.below(if depth > 0 { 13 } else { 7 }) {
            0 | 1 => {
                let value = self.random.between(-2, 5);
                self.whole(value);
            }
            2..=6 => self.small_name(),
            7 | 8 => {
                self.put("max ( min (");
                self.free(depth - 1);
                self.put(", 9 ) , - 2 )");
            }
            9 => {
                // The rest of a division by 7.
                self.put("(");
                let start = self.tokens.len();
                self.put("(");
                self.free(depth - 1);
                self.put(")");
                let again = self.tokens[start..].to_vec();
                self.put("-");
                self.tokens.extend(again);
                self.put("/ 7 * 7 )");
            }
            10 => {
                self.put("min ( abs (");
                self.free(depth - 1);
                self.put(") , 5 )");
            }
            11 => {
                // To an end of the range and back.
                let (there, back) = *self.random.pick(&[("+", "-"), ("-", "+")]);
                let far = HIGHEST - SMALL;
                self.put("(");
                self.small_name();
                self.put(&format!("{there} {far} {back} {far} )"));
            }
            _ => {
                self.put("(");
                self.small(depth - 1);
                self.put(")");
            }
        }
    }

    fn small_name(&mut self) {
        let names: Vec<&'static str> = self.scope.iter().chain(&self.wholes).copied().collect();
        if names.is_empty() {
            let value = self.random.between(0, 3);
            self.whole(value);
        } else {
            let name = *self.random.pick(&names);
            self.put(name);
        }
    }

    /// An expression that has a value nearly always, within some thousands.
    fn free(&mut self, depth: usize) {
        self.small(depth);
        for _ in 0..self.random.below(3) {
            match self.random.below(20) {
                0..=7 => {
                    self.put("+");
                    self.small(depth);
                }
                8..=12 => {
                    self.put("-");
                    self.small(depth);
                }
                13..=15 => {
                    self.put("*");
                    self.small_name();
                }
                16..=18 => {
                    let divisor = *self.random.pick(&["2", "3", "7", "- 2", "- 3"]);
                    self.put(&format!("/ {divisor}"));
                }
                // This one can be zero.
                _ if self.random.chance(20) => {
                    self.put("/");
                    self.small_name();
                }
                _ => {}
            }
        }
    }
}

// Texts near the limits.

/// How near to a limit: mostly at it or one past it.
fn around(random: &mut Random, limit: usize) -> usize {
    match random.below(6) {
        0 => limit - 1,
        1 | 2 => limit,
        3 | 4 => limit + 1,
        _ => limit + 1 + random.below(limit),
    }
}

/// Whole numbers at both ends of the range, one past each, and far past.
const AROUND_THE_ENDS: [&str; 8] = [
    "1099511627775",
    "1099511627775",
    "-1099511627775",
    "-1099511627775",
    "1099511627776",
    "-1099511627776",
    "9999999999999",
    "-18446744073709551617",
];

/// Expressions over a small n that have a value for some n only, or for none: zero divisors, sums and products just
/// inside the range and just outside, products whose low 64 bits are in range.
const PERHAPS_NO_VALUE: [&str; 14] = [
    "1/n",
    "7/(n-1)",
    "1099511627775+n",
    "-1099511627775-n",
    "abs(n-1099511627775)",
    "1048575*1048577*n",
    "-1048575*1048577*n",
    "1048576*1048576*n",
    "219902325555*(n+4)",
    "-219902325555*(n+4)",
    "1099511627775*n",
    "1099511627775*1099511627775*n",
    "4294967297*4294967297",
    "4294967296*(n+4294967296)",
];

/// Dividends and divisors of both signs, with and without a remainder, at both ends of the range, sometimes zero.
const DIVIDED: [&str; 12] =
    ["n", "n", "(n-1)", "(0-n)", "2", "-2", "7", "-7", "max(n,1)", "min(n,-1)", "1099511627775", "-1099511627775"];

/// What stands in braces, where a wait and a channel of several items begin alike: some fit, some don't.
const WAIT_OR_CHANNEL: [&str; 36] = [
    "a,1*2",
    "a,n*(n+1)",
    "a,-1",
    "a,1.5*n",
    "a,-0.5",
    "a,n",
    "a,1*2![1],1",
    "a,1*2*n?[1](x),1",
    "a,n*2/3#[1],1",
    "a,n+1#[1],1",
    "a,-1![n],n",
    "a,(b)![1],1",
    "a,abs(n)![1,2],1",
    "a,n,2![n],1",
    "a,1*n,b?[0..9],1",
    "a,b,c?[1](x),1",
    "n,a,n![1],1",
    "1,2,3#[n],1",
    "~a,b?[1],1",
    "~1,b,n?[0..9],1",
    "@a,b![1],1",
    "@a,1,n?[1],1",
    "(n),1![1],1",
    // From here on none fits.
    "a,1*2*3",
    "a,1+2",
    "a,(b)",
    "a,1,2",
    "1,a",
    "a,1.5,2",
    "a,-1.5![1],1",
    "a,b,c,d![1],1",
    "@a,b,c,d![1],1",
    "@a,1",
    "(a),1",
    "a,abs(n)",
    "a,,1",
];

/// How many kinds of texts near a limit there are.
pub const EDGES: usize = 28;

/// A text at one of the limits of 01, or just past it.
pub fn edge(random: &mut Random) -> Vec<u8> {
    let which = random.below(EDGES);
    edge_of_kind(random, which)
}

/// The same, of one kind.
pub fn edge_of_kind(random: &mut Random, which: usize) -> Vec<u8> {
    let text = match which {
        0 => {
            let mut text = lively(random);
            let length = around(random, 16_384);
            text.resize(length.max(text.len()), b' ');
            return text;
        }
        1 => {
            let depth = around(random, 24);
            let inner = format!("{}n{}", "(".repeat(depth), ")".repeat(depth));
            format!("A[n]={{c![{inner}],1}}.A[n];A[1];")
        }
        2 => {
            let depth = around(random, 24);
            format!("A[n]={}A[n]{};A[1];", "{go,1}.(".repeat(depth), ")".repeat(depth))
        }
        3 => {
            let minus = *random.pick(&["", "-"]);
            format!("A[]={{c![{minus}1{}],1}};A[];", "+1".repeat(around(random, 2_039)))
        }
        4 => {
            let name = "n".repeat(around(random, 16));
            format!("{name}=1;A[]={{go,{name}}}.A[];A[];")
        }
        5 => {
            let number = *random.pick(&AROUND_THE_ENDS);
            format!("w={number};A[n]={{w![w],1}}.A[{number}]+{{n?[w..n](x),1}}.A[x]+{{go,1}};A[{number}];")
        }
        6 => {
            let number = *random.pick(&["999999.9999", "0000001.5", "1.00000", "100000.0000", "100000.0001", "-0.0"]);
            format!("A[]={{go,{number}}}.A[];A[];")
        }
        7 => {
            let one = *random.pick(&["", "A[]||", "2*A[]||"]);
            format!("A[]={{go,1}}.A[];{one}{}*A[];", random.between(253, 258))
        }
        8 => format!("A[]={{go,1}}.A[]||{{tick,1}};{}*A[]||A[];", random.between(125, 130)),
        9 => {
            let mut text = String::new();
            for number in 0..around(random, 64) {
                text.push_str(&format!("v{number}={number};"));
            }
            text + "A[]={go,v0}.A[];A[];"
        }
        10 => {
            let mut text = String::new();
            for number in 0..around(random, 64) {
                text.push_str(&format!("D{number}[]={{go,1}}.D0[];"));
            }
            text + "D1[];"
        }
        11 => {
            let names: Vec<String> = (0..around(random, 6)).map(|number| format!("p{number}")).collect();
            let values = vec!["1"; names.len()].join(",");
            format!("A[{}]={{go,p0}}.A[{}];A[{values}];", names.join(","), names.join(","))
        }
        12 => {
            let mut text = "A[]={c![1],1}.".to_string();
            for number in 0..around(random, 8) {
                text.push_str(&format!("{{c?[0..5](x{number}),1}}."));
            }
            text + "A[];A[];"
        }
        13 => {
            let branches = vec!["{go,1}.A[]"; around(random, 16)];
            format!("A[]={};A[];", branches.join("+"))
        }
        // Entries around 1,024.
        14 => {
            let receivers = 28 + random.below(8);
            format!("S[]={{@c![1],1}}.S[];R[]={{@c?[1],1}}.R[];32*S[]||{receivers}*R[];")
        }
        // Totals around the largest.
        15 => {
            let senders = around(random, 9);
            let more = *random.pick(&["0", "0.0001"]);
            format!("S[]={{@c![1],100000}}.S[];R[]={{@c?[1],100000}}.R[]+{{go,{more}}};{senders}*S[]||R[];")
        }
        // Nothing can happen.
        16 => {
            let rate = *random.pick(&["0", "0.0", "1*0", "-0.0*5"]);
            format!("A[]={{go,{rate}}}.A[]+{{@c?[1],1}};{}*A[];", random.below(4))
        }
        // Processes grow.
        17 => {
            let calls = vec!["A[n+1]"; 2 + random.below(120)];
            format!("A[n]={{go,1}}.({})+{{@c![n],1}}.A[n]+{{@c?[0..99](x),1}}.(A[x]||A[n]);2*A[0];", calls.join("||"))
        }
        // Pairs grow.
        18 => "A[n]={c![n],5}.A[n+1]+{c#[n-3],1}.A[n+1]+{c?[n-5..n](x),0.1}.A[n];4*A[0];".to_string(),
        // No values.
        19 => {
            let part = *random.pick(&PERHAPS_NO_VALUE);
            format!("A[n]={{go,1}}.A[{part}]+{{tick,1}}.A[0]+{{tock,1}}.A[1];A[2]||A[1]||A[0];")
        }
        20 => {
            let part = *random.pick(&PERHAPS_NO_VALUE);
            format!("A[n]={{go,1}}.A[n-1]+{{tick,1}}.A[3]+[n<2]->{{c![{part}],1}}.A[n];A[4]||A[5]||A[6];")
        }
        // Names that aren't new.
        21 | 22 => {
            let (variable, other) = (*random.pick(&["v", "w", "A"]), *random.pick(&["w", "u"]));
            let (first, second) = (*random.pick(&["n", "v"]), *random.pick(&["m", "m", "n", "w"]));
            let (bound, again) = (*random.pick(&["x", "y", "n"]), *random.pick(&["x", "y", "m", "w"]));
            let (one, two) = (*random.pick(&["A", "A", "B"]), *random.pick(&["B", "B", "B", "A"]));
            format!(
                "{variable}=1;{other}=2.5;{one}[{first},{second}]={{c?[0..9]({bound}),1}}.({{c?[1,2]({again},z),1}}||{{go,1}})\
                 +{{go,{second}}};{two}[x]={{c![1],1}};{two}[1]||A[1,2];"
            )
        }
        // Names that aren't given, and lists that don't agree.
        23 | 24 => {
            let names = ["n", "n", "n", "n", "x", "g", "w", "u"];
            let (value, atom, part) = (*random.pick(&names), *random.pick(&names), *random.pick(&names));
            let scale = *random.pick(&["g", "w", "n", "g", "u"]);
            let bound = *random.pick(&["x", "x", "x", "x,y"]);
            let call = *random.pick(&["A[x]", "A[x+n]", "A[x]", "A[]", "B[x]", "A[x,q]", "A[u]"]);
            let start = *random.pick(&["A[1]", "A[1]", "A[1]", "A[]", "B[1]"]);
            format!(
                "w=2;g=0.5;A[n]=[{value}<=9]->{{c![{atom}],{scale}}}.{{c?[0..{part}]({bound}),{scale}*{atom}}}.{call};\
                 2*A[1]||{start};"
            )
        }
        // Divisions.
        25 => {
            let (dividend, divisor) = (*random.pick(&DIVIDED), *random.pick(&DIVIDED));
            let start = random.between(-SMALL, SMALL);
            format!("A[n]={{c![{dividend}/{divisor}],1}}.A[n-1]+{{go,1}}.A[0-n];A[{start}];")
        }
        26 => {
            let inside = *random.pick(&WAIT_OR_CHANNEL);
            format!("A[n]={{{inside}}}.A[n]+{{go,1}}.A[n+1];2*A[0];")
        }
        _ => {
            let rate = *random.pick(&[
                "n",
                "n*n",
                "0.5*n",
                "10000*n",
                "100000.0000*n",
                "n*1099511627775",
                "100000*1099511627775",
                // By its low 64 bits 29044.8384.
                "100000*18446744074",
                "0.0001*-1099511627775",
                "0*1099511627775",
                "1099511627775",
                "1099511627776",
            ]);
            let start = if random.chance(80) { random.between(0, 11) } else { *random.pick(&[LOWEST, HIGHEST]) };
            format!("A[n]={{go,{rate}}}.A[n+1]+{{tick,1}}.A[n-1];A[{start}];")
        }
    };
    text.into_bytes()
}

// Damaged texts.

const WORDS: [&str; 46] = [
    "abs",
    "max",
    "min",
    "union",
    "inter",
    "=",
    ";",
    "[",
    "]",
    "{",
    "}",
    "(",
    ")",
    ",",
    ".",
    "..",
    "+",
    "-",
    "*",
    "/",
    "\\",
    "<",
    "<=",
    ">",
    ">=",
    "==",
    "!=",
    "&",
    "|",
    "||",
    "->",
    "!",
    "#",
    "?",
    "~",
    "@",
    "$",
    "n",
    "go",
    "A",
    "0",
    "1",
    "300",
    "1.5",
    "9999999999999",
    "abcdefghijklmnopq",
];

/// The text with one or a few things done to it that often make it illegal.
pub fn damaged(random: &mut Random, text: &[u8]) -> Vec<u8> {
    let mut text = text.to_vec();
    let times = *random.pick(&[1, 1, 1, 2, 4]);
    for _ in 0..times {
        text = if random.chance(40) { damage_bytes(random, text) } else { damage_tokens(random, &text) };
    }
    text
}

/// A part of a list with this length, mostly a short one.
fn part(random: &mut Random, length: usize) -> std::ops::Range<usize> {
    let start = random.below(length + 1);
    let most = if random.chance(80) { 4 } else { length };
    let end = (start + random.below(most + 1)).min(length);
    start..end
}

fn damage_bytes(random: &mut Random, mut text: Vec<u8>) -> Vec<u8> {
    let length = text.len();
    let piece = part(random, length);
    match random.below(10) {
        // Cut.
        0 | 1 => {
            text.drain(piece);
        }
        2 => text.truncate(piece.start),
        // Insert.
        3 | 4 => {
            let byte = random.between(32, 126) as u8;
            text.insert(piece.start, byte);
        }
        // A byte that isn't allowed, or a rare one that is.
        5 => {
            let byte = *random.pick(&[0, 1, 8, 9, 10, 11, 13, 31, 127, 128, 255]);
            text.insert(piece.start, byte);
        }
        // Double.
        6 => {
            let copy = text[piece.clone()].to_vec();
            text.splice(piece.end..piece.end, copy);
        }
        // Swap.
        7 if length > 0 => text.swap(random.below(length), piece.start.min(length - 1)),
        // Move.
        8 => {
            let moved: Vec<u8> = text.drain(piece).collect();
            let place = random.below(text.len() + 1);
            text.splice(place..place, moved);
        }
        // Remove a bracket.
        _ => {
            let brackets: Vec<usize> = (0..length).filter(|&place| b"()[]{}".contains(&text[place])).collect();
            if !brackets.is_empty() {
                text.remove(*random.pick(&brackets));
            }
        }
    }
    text
}

fn damage_tokens(random: &mut Random, text: &[u8]) -> Vec<u8> {
    let mut words: Vec<Vec<u8>> = Vec::new();
    let mut names = Vec::new();
    for token in tokens::split(text) {
        if token.kind == Kind::Name {
            names.push(words.len());
        }
        words.push(token.word(text).to_vec());
    }
    let length = words.len();
    let piece = part(random, length);
    match random.below(10) {
        0 | 1 => {
            words.drain(piece);
        }
        2 | 3 => {
            let word = random.pick(&WORDS).as_bytes().to_vec();
            words.insert(piece.start, word);
        }
        4 => {
            let copy = words[piece.clone()].to_vec();
            words.splice(piece.end..piece.end, copy);
        }
        5 if length > 0 => words.swap(random.below(length), piece.start.min(length - 1)),
        6 => {
            let moved: Vec<Vec<u8>> = words.drain(piece).collect();
            let place = random.below(words.len() + 1);
            words.splice(place..place, moved);
        }
        7 if length > 0 => {
            let word = random.pick(&WORDS).as_bytes().to_vec();
            words[piece.start.min(length - 1)] = word;
        }
        // A name in the place of another.
        _ if !names.is_empty() => {
            let (from, to) = (*random.pick(&names), *random.pick(&names));
            words[to] = words[from].clone();
        }
        _ => {}
    }
    let mut text: Vec<u8> = Vec::new();
    for word in words {
        if text.last().is_some_and(|&last| would_join(last, word[0])) {
            text.push(b' ');
        }
        text.extend(word);
    }
    text
}

// Lists of calls.

fn some_draw(random: &mut Random) -> Draw {
    match random.below(40) {
        0 | 1 => Draw::Exactly(0),
        2 | 3 => Draw::Last,
        4 => Draw::Total,
        5 => Draw::Exactly(u64::MAX),
        6 => Draw::Exactly(random.number()),
        _ => Draw::Inside(random.number()),
    }
}

/// The call, which mostly lends what it should.
pub(crate) fn lent(random: &mut Random, call: Call) -> Call {
    if !random.chance(2) {
        return call;
    }
    // A run's events may have any length.
    let events = call.lengths().map_or(EVENTS, |lengths| lengths.events);
    let mut wrong = |right: usize| match random.below(8) {
        0 => 0,
        1 => right - 1,
        2 => right + 1,
        3 => random.below(right + SPARE + 1),
        _ => right,
    };
    call.with(Lengths {
        model: wrong(MODEL),
        state: wrong(STATE),
        listing: wrong(LISTING),
        report: wrong(REPORT),
        saves: wrong(SAVES),
        events,
        search: wrong(SEARCH),
    })
}

pub fn some_step(random: &mut Random) -> Call {
    let draw = some_draw(random);
    lent(random, Call::Step { lengths: RIGHT, draw })
}

fn some_timed(random: &mut Random) -> Call {
    let (draw, waiting) = (some_draw(random), some_waiting(random));
    lent(random, Call::Timed { lengths: RIGHT, draw, waiting })
}

/// Waiting draws: enough of them, mostly; few; many runs of even length, or a long one.
pub fn some_waiting(random: &mut Random) -> Vec<u16> {
    let mut waiting = Vec::new();
    match random.below(12) {
        0 => {
            let length = random.below(4);
            waiting.extend((0..length).map(|_| random.number() as u16));
            return waiting;
        }
        // Runs of two, each ended by a draw that is as low as the second or higher.
        1 => {
            for _ in 0..*random.pick(&[1, 5, 30, 31, 31, 32, 33]) {
                let (first, more) = (random.between(1, 65_535) as u16, random.number() as u16);
                let second = random.below(usize::from(first)) as u16;
                waiting.extend([first, second, second.max(*random.pick(&[0, second, more]))]);
            }
        }
        2 => {
            let length = *random.pick(&[1, 2, 3, 8, 9, 300, 301]);
            let first = random.between(length, 65_535) as u16;
            waiting.extend((0..length as u16).map(|number| first - number));
        }
        // Few values: many are equal.
        3 => waiting.extend((0..20).map(|_| random.below(3) as u16)),
        4 => waiting.extend(*random.pick(&[[65_535, 65_535], [40_000, 50_000]])),
        _ => {}
    }
    if random.chance(90) {
        waiting.extend((0..12).map(|_| random.number() as u16));
    }
    waiting
}

/// Mostly any word; some at the bound from which words are turned away, near 2^64, or small.
fn some_word(random: &mut Random) -> Word {
    match random.below(24) {
        0 => Word::Bound(*random.pick(&[-1, -1, 0, 0, 1])),
        1 => Word::Exactly(u64::MAX - random.below(3) as u64),
        2 => {
            let digits = random.below(13) as u32;
            Word::Exactly(u64::MAX - random.number() % 10u64.pow(digits))
        }
        3 => Word::Exactly(random.below(3) as u64),
        _ => Word::Exactly(random.number()),
    }
}

/// So many words; sometimes all of them small, so that the first entry is taken again and again.
fn some_words(random: &mut Random, count: usize) -> Vec<Word> {
    let small = random.chance(10);
    (0..count).map(|_| if small { Word::Exactly(random.below(3) as u64) } else { some_word(random) }).collect()
}

/// Waiting draws for so many steps: enough of them, mostly; else as for one step, or 32 runs of even length after some.
fn some_waits(random: &mut Random, steps: usize) -> Vec<u16> {
    let any = |random: &mut Random, count: usize| (0..count).map(|_| random.number() as u16).collect::<Vec<_>>();
    match random.below(10) {
        0 => some_waiting(random),
        1 => {
            let steps = random.below(4);
            [[7, 7].repeat(steps), [2, 1, 1].repeat(32), vec![7, 7]].concat()
        }
        2 => {
            let count = random.below(4 * steps + 4);
            any(random, count)
        }
        _ => any(random, 8 * steps + 20),
    }
}

/// A run of few steps or many, with room for few or many.
pub fn some_run(random: &mut Random) -> Call {
    let steps = *random.pick(&[0, 1, 2, 3, 8, 8, 20, 40]);
    let words = some_words(random, steps);
    let waiting = some_waits(random, steps);
    let limit = *random.pick(&[0, 1, 2, 5, 10, 1_024, 1_025, 1 << 32, u64::MAX, u64::MAX, u64::MAX, u64::MAX]);
    let some = EVENT * random.below(12) + random.below(EVENT);
    let events = *random.pick(&[0, EVENT - 1, EVENT, EVENT + 1, some, some, EVENTS, EVENTS, EVENTS, EVENTS + SPARE]);
    let lengths = Lengths { events, ..RIGHT };
    lent(random, Call::Run { lengths, words, waiting, limit })
}

const LIST: Call = Call::List { lengths: RIGHT };
const REPORTED: Call = Call::Report { lengths: RIGHT };

/// Names of saves, more than there may be.
pub const SAVE_NAMES: [&str; 10] =
    ["a", "b", "A", "stage", "Stage", "abcdefgh", "abcdefghi", "abcdefghijklmnop", "abcdefghijklmnoq", "Z"];

/// Mostly a name of a save that may be known; some are of another form.
pub fn some_name(random: &mut Random) -> Vec<u8> {
    match random.below(30) {
        0 => Vec::new(),
        1 => b"abcdefghijklmnopq".to_vec(),
        2 => random.pick(&[&b"a1"[..], b"_", b"a b", b"a\0", b"@", b"[", b"`", b"{", b"\xc3\xa4", b"abc "]).to_vec(),
        3 => {
            let length = random.below(20);
            (0..length).map(|_| *random.pick(b"azAZaz")).collect()
        }
        4 => {
            let length = random.below(20);
            // A line of a script ends at a newline.
            (0..length).map(|_| random.number() as u8).filter(|&byte| byte != b'\n').collect()
        }
        5..=14 => random.pick(&SAVE_NAMES[..3]).as_bytes().to_vec(),
        _ => random.pick(&SAVE_NAMES).as_bytes().to_vec(),
    }
}

/// Names of waits that models have, one that none has, and others.
fn some_wait(random: &mut Random) -> Vec<u8> {
    match random.below(12) {
        0 => b"never".to_vec(),
        1 => some_name(random),
        2 => random.pick(&["a", "b", "tock", "go2", "g", "gogogogogogogogogo"]).as_bytes().to_vec(),
        _ => random.pick(&WAIT_NAMES).as_bytes().to_vec(),
    }
}

/// Runs that a search walks, at most, but for those of depth 1.
const FEW: usize = 60;
const MANY: usize = 400;

fn some_depth(random: &mut Random, runs: usize) -> Depth {
    match random.below(20) {
        0 => Depth::Exactly(*random.pick(&[0, 9, 10, 255, 256, 1 << 32, (1 << 32) + 1, u64::MAX])),
        1..=8 => Depth::Within(8, runs),
        _ => Depth::Within(random.between(1, 8) as u64, runs),
    }
}

pub fn some_search(random: &mut Random) -> Call {
    let runs = if random.chance(10) { MANY } else { FEW };
    let (name, depth) = (some_wait(random), some_depth(random, runs));
    lent(random, Call::Search { lengths: RIGHT, name, depth })
}

/// The beginning of a search, or some runs more of one.
pub fn some_piece(random: &mut Random) -> Call {
    if random.chance(25) {
        let (name, depth) = (some_wait(random), some_depth(random, FEW));
        return lent(random, Call::Begin { lengths: RIGHT, name, depth });
    }
    let number = match random.below(20) {
        0 => *random.pick(&[COUNTED, COUNTED - 1, COUNTED - 2, COUNTED + 1, u64::MAX, u64::MAX - 1]),
        1 | 2 => 0,
        3..=8 => 1,
        9..=12 => 2,
        13..=16 => random.below(12) as u64,
        _ => random.below(100) as u64,
    };
    lent(random, Call::Carry { lengths: RIGHT, number })
}

/// A number of the search changed, mostly one that stands before the state.
pub fn some_change_of_search(random: &mut Random) -> Call {
    let most = COUNTED as i64;
    let odd = *random.pick(&[0, 1, -1, 9, 1_024, HIGHEST + 1, most + 1, i64::MAX, i64::MIN]);
    let (place, number) = match random.below(14) {
        0 | 1 => (pieces::DEPTH_PLACE, random.between(0, 9)),
        2 => (pieces::WAIT, random.between(0, 6)),
        3 | 4 => (pieces::COUNT, *random.pick(&[0, 1, 2, 100, most - 1, most, most + 1])),
        5 | 6 => (pieces::MET, random.between(0, 2)),
        7 | 8 => (pieces::LENGTH, random.between(0, 4)),
        9 | 10 => (pieces::RUN + random.below(4), random.between(0, 4)),
        11 => (random.below(pieces::START), odd),
        12 => (pieces::START + random.below(30), random.between(0, 4)),
        _ => (pieces::START + random.below(STATE), odd),
    };
    Call::SetSearch { place, number }
}

/// Such a change and what is made of it; then mostly no search is under way.
pub fn some_spoilt_search(random: &mut Random) -> Vec<Call> {
    let mut calls = vec![some_change_of_search(random), some_piece(random)];
    while random.chance(40) {
        calls.push(if random.chance(30) { some_change_of_search(random) } else { some_piece(random) });
    }
    if random.chance(80) {
        calls.push(Call::EndSearch);
    }
    calls
}

/// A list of calls that begins searches and carries them on more often than it steps.
pub fn searched_calls(random: &mut Random, most: usize) -> Vec<Call> {
    let mut calls = Vec::new();
    for _ in 0..1 + random.below(2) {
        let text = match random.below(10) {
            0 => some_text(random),
            1..=3 => {
                let which = random.between(16, 20) as usize;
                edge_of_kind(random, which)
            }
            4..=6 => mazes::maze(random),
            _ => lively(random),
        };
        calls.push(lent(random, Call::Open { text, lengths: RIGHT }));
        for _ in 0..random.below(most + 1) {
            match random.below(24) {
                0 | 1 => calls.extend(some_spoilt_search(random)),
                2..=4 => calls.push(some_step(random)),
                5 => calls.push(some_stored(random)),
                6 => calls.push(some_timed(random)),
                7 => calls.push(some_search(random)),
                _ => calls.push(some_piece(random)),
            }
        }
    }
    calls
}

/// A save, a return or a forget.
pub fn some_stored(random: &mut Random) -> Call {
    let (lengths, name) = (RIGHT, some_name(random));
    let call = match random.below(10) {
        0..=4 => Call::Save { lengths, name },
        5..=7 => Call::Return { lengths, name },
        _ => Call::Forget { lengths, name },
    };
    lent(random, call)
}

/// Any text: lively, near a limit, or either of them damaged.
pub fn some_text(random: &mut Random) -> Vec<u8> {
    let text = if random.chance(70) { lively(random) } else { edge(random) };
    match random.below(10) {
        0..=3 => damaged(random, &text),
        4 if random.chance(5) => {
            let other = lively(random);
            [text, other].concat()
        }
        _ => text,
    }
}

/// An opening of any text, sometimes under the steady profile, and then often of one that it accepts.
fn some_opening(random: &mut Random) -> Call {
    let lengths = RIGHT;
    match random.below(10) {
        0 => Call::Steady { text: some_text(random), lengths },
        1 | 2 => Call::Steady { text: steady(random), lengths },
        _ => Call::Open { text: some_text(random), lengths },
    }
}

/// A change of the buffers that often spoils them.
fn some_change(random: &mut Random) -> Call {
    match random.below(15) {
        14 => some_change_of_search(random),
        12 => some_change_of_saves(random),
        13 => Call::SetClock(some_clock(random)),
        0..=5 => {
            let place = match random.below(6) {
                0 => random.below(2),
                1 | 2 => FIRST_PROCESS + random.below(30),
                3 => FIRST_PAIR + random.below(3 * PAIR),
                _ => random.below(STATE),
            };
            let number = *random.pick(&[
                0,
                1,
                1,
                2,
                3,
                -1,
                5,
                255,
                256,
                257,
                HIGHEST,
                HIGHEST + 1,
                LOWEST,
                LOWEST - 1,
                i64::MAX,
                i64::MIN,
            ]);
            Call::SetState { place, number }
        }
        6 | 7 => {
            let place = if random.chance(50) { random.below(200) } else { random.below(MODEL) };
            Call::SetModel { place, byte: random.number() as u8 }
        }
        8 | 9 => Call::Light { count: *random.pick(&[1, 5, 255, 256, 256]), first: random.between(-3, 3) },
        10 => Call::Crowd { count: *random.pick(&[1, 2, 30, 255, 256]) },
        _ => Call::Fill { number: random.number() },
    }
}

/// A clock near the ends of its range, past it, or anywhere.
pub(crate) fn some_clock(random: &mut Random) -> Clock {
    let mut number = || {
        let any = random.number();
        *random.pick(&[0, 1, any, MOST, MOST - 1, MOST - 5, MOST - 100_000, MOST - 100_000_000_000, MOST + 1, u64::MAX])
    };
    Clock { ticks: number(), draws: number() }
}

/// A number of a save, or a name, changed.
fn some_change_of_saves(random: &mut Random) -> Call {
    let start = saves::PLACE * random.below(saves::PLACES);
    let packed = saves::pack(random.pick(&SAVE_NAMES).as_bytes());
    let number = *random.pick(&[0, 1, -1, 256, 257, i64::MAX, i64::MIN, packed[0], packed[1], packed[0] << 8]);
    let offset = match random.below(4) {
        0 => random.below(saves::NAME),
        1 => saves::NAME + random.below(2),
        2 if random.chance(50) => saves::CLOCK + random.below(2),
        2 => saves::NAME + FIRST_PROCESS + random.below(PROCESS),
        _ => random.below(saves::PLACE),
    };
    Call::SetSaves { place: start + offset, number }
}

/// A list of calls on texts near each limit in turn.
pub fn edge_calls(random: &mut Random) -> Vec<Call> {
    let mut calls = Vec::new();
    for which in 0..EDGES {
        let (text, lengths) = (edge_of_kind(random, which), RIGHT);
        calls.push(if random.chance(50) { Call::Open { text, lengths } } else { Call::Steady { text, lengths } });
        calls.extend([LIST, REPORTED]);
        for _ in 0..4 {
            calls.push(Call::Step { lengths: RIGHT, draw: some_draw(random) });
        }
        calls.extend([some_timed(random), some_search(random), some_run(random)]);
    }
    calls
}

/// A list of calls that saves, returns and forgets more often than it steps, here and there with spoilt saves.
pub fn stored_calls(random: &mut Random, most: usize) -> Vec<Call> {
    let mut calls = Vec::new();
    for _ in 0..1 + random.below(2) {
        let text = if random.chance(90) { lively(random) } else { some_text(random) };
        calls.push(lent(random, Call::Open { text, lengths: RIGHT }));
        // All names at once, one more than there may be.
        if random.chance(30) {
            let names = SAVE_NAMES.iter().take(saves::PLACES + 1);
            calls.extend(names.map(|name| Call::Save { lengths: RIGHT, name: name.as_bytes().to_vec() }));
        }
        for _ in 0..random.below(most + 1) {
            match random.below(20) {
                0 => {
                    let change = some_change_of_saves(random);
                    let Call::SetSaves { place, .. } = change else { continue };
                    calls.extend([change, some_stored(random), some_stored(random)]);
                    // Mostly an empty place again, or no save at all.
                    if random.chance(80) {
                        calls.push(Call::SetSaves { place, number: 0 });
                    }
                }
                1..=3 => calls.push(some_step(random)),
                4..=6 => calls.push(some_timed(random)),
                7 => calls.push(lent(random, LIST)),
                _ => calls.push(some_stored(random)),
            }
        }
    }
    calls
}

/// A list of calls: texts opened, listed and stepped, with wrong lengths and spoilt buffers here
/// and there.
pub fn calls(random: &mut Random, most_steps: usize) -> Vec<Call> {
    let mut calls = Vec::new();
    // Before any text is open.
    if random.chance(10) {
        calls.extend([lent(random, LIST), some_step(random), lent(random, REPORTED), some_stored(random)]);
        calls.extend([some_timed(random), some_search(random), some_run(random), some_piece(random)]);
    }
    for _ in 0..1 + random.below(3) {
        let opening = some_opening(random);
        let (Call::Open { text, .. } | Call::Steady { text, .. }) = &opening else { continue };
        // Few calls on an engine that a refused text has closed.
        let steps = if model::read(text).is_ok() { most_steps } else { 2 };
        calls.push(lent(random, opening));
        let mut left = random.below(steps + 1);
        while left > 0 {
            left -= 1;
            match random.below(30) {
                0 => {
                    let change = some_change(random);
                    // Few calls on buffers that may be spoilt.
                    if change.spoils() {
                        left = left.min(4);
                    }
                    calls.push(change);
                }
                1..=3 => calls.push(lent(random, LIST)),
                4 | 5 => calls.push(lent(random, REPORTED)),
                6..=9 => calls.push(some_stored(random)),
                10..=15 => calls.push(some_timed(random)),
                16 => calls.push(some_search(random)),
                17 => calls.push(some_run(random)),
                18 => calls.push(some_piece(random)),
                _ => calls.push(some_step(random)),
            }
        }
    }
    calls
}
