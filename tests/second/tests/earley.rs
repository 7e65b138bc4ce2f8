//! Question 5 against a reader of another kind: an Earley recogniser over the grammar of 01
//! written as plain rules. It goes from token to token with all readings at once, so that the
//! first token that leaves no reading is the first that no fitting text could have there.

use second::generate::{damaged, edge, lively, Random};
use second::reader;
use second::tokens::{split, Kind, Token};
use std::collections::{BTreeMap, BTreeSet};

/// One rule a line: a name, then what it can be. Lower-case words and signs are tokens.
const GRAMMAR: &str = "
Model       Variables Definitions System
Variables
Variables   Variables Variable
Variable    name = Number ;
Definitions Definition
Definitions Definitions Definition
Definition  name [ ] = Body ;
Definition  name [ Names ] = Body ;
Names       name
Names       Names , name
System      Items ;
Items       Item
Items       Items || Item
Item        name [ ]
Item        name [ Wholes ]
Item        whole * name [ ]
Item        whole * name [ Wholes ]
Wholes      Whole
Wholes      Wholes , Whole
Whole       whole
Whole       - whole
Number      Whole
Number      decimal
Number      - decimal
Body        Sum
Body        Body || Sum
Sum         Guarded
Sum         Sum + Guarded
Guarded     Prefix
Guarded     [ Condition ] -> Prefix
Prefix      { Action , Rate }
Prefix      { Action , Rate } . Continued
Continued   Guarded
Continued   Call
Continued   Group
Group       ( Parts )
Parts       Part
Parts       Parts || Part
Part        Sum
Part        Call
Part        Group
Call        name [ ]
Call        name [ Expressions ]
Expressions Expression
Expressions Expressions , Expression
Action      name
Action      Channel ! [ Values ]
Action      Channel # [ Values ]
Action      Channel ? [ Sets ]
Action      Channel ? [ Sets ] ( Names )
Action      ~ Channel ? [ Sets ]
Action      @ Channel ! [ Values ]
Action      @ Channel ? [ Sets ]
Action      @ Channel ? [ Sets ] ( Names )
Channel     Expression
Channel     Expression , Expression
Channel     Expression , Expression , Expression
Values      Expression
Values      Expression , Expression
Sets        Set
Sets        Set , Set
Set         Range
Set         Set \\ Range
Set         Set union Range
Set         Set inter Range
Range       Expression
Range       Expression .. Expression
Expression  Term
Expression  Expression + Term
Expression  Expression - Term
Term        Atom
Term        Term * Atom
Term        Term / Atom
Atom        Whole
Atom        name
Atom        abs ( Expression )
Atom        max ( Expression , Expression )
Atom        min ( Expression , Expression )
Atom        ( Expression )
Condition   All
Condition   Condition | All
All         Test
All         All & Test
Test        Relation
Test        ~ Relation
Relation    Expression < Expression
Relation    Expression <= Expression
Relation    Expression > Expression
Relation    Expression >= Expression
Relation    Expression == Expression
Relation    Expression != Expression
Rate        Number
Rate        name
Rate        Number * Atom
Rate        name * Atom
";

/// Every kind of token with a word of that kind.
const WORDS: [&str; 40] = [
    "name", "7", "1.5", "abs", "max", "min", "union", "inter", "=", ";", "[", "]", "{", "}", "(", ")", ",", ".", "..",
    "+", "-", "*", "/", "\\", "<", "<=", ">", ">=", "==", "!=", "&", "|", "||", "->", "!", "#", "?", "~", "@", "$",
];

#[derive(Clone, Copy, PartialEq, Eq, PartialOrd, Ord, Debug)]
enum Symbol {
    Token(Kind),
    Rule(usize),
}

struct Grammar {
    rules: Vec<(usize, Vec<Symbol>)>,
    /// The rules for each name.
    by_name: Vec<Vec<usize>>,
}

/// A rule, how much of it is read, and where its reading began.
type State = (usize, usize, usize);

fn grammar() -> Grammar {
    let lines: Vec<Vec<&str>> = GRAMMAR
        .lines()
        .map(|line| line.split_whitespace().collect())
        .filter(|line: &Vec<&str>| !line.is_empty())
        .collect();
    let mut names: Vec<&str> = Vec::new();
    for line in &lines {
        if !names.contains(&line[0]) {
            names.push(line[0]);
        }
    }
    let symbol = |word: &str| match names.iter().position(|name| *name == word) {
        Some(name) => Symbol::Rule(name),
        None if word == "whole" => Symbol::Token(Kind::Whole),
        None if word == "decimal" => Symbol::Token(Kind::Decimal),
        None => Symbol::Token(split(word.as_bytes())[0].kind),
    };
    let mut rules = Vec::new();
    let mut by_name = vec![Vec::new(); names.len()];
    for line in &lines {
        let name = names.iter().position(|name| *name == line[0]).unwrap();
        by_name[name].push(rules.len());
        rules.push((name, line[1..].iter().map(|word| symbol(word)).collect()));
    }
    Grammar { rules, by_name }
}

struct Recogniser<'a> {
    grammar: &'a Grammar,
    /// All readings before each token so far.
    sets: Vec<Vec<State>>,
}

impl<'a> Recogniser<'a> {
    fn new(grammar: &'a Grammar) -> Self {
        let start = grammar.by_name[0].iter().map(|&rule| (rule, 0, 0)).collect();
        let mut recogniser = Recogniser { grammar, sets: Vec::new() };
        recogniser.close(start);
        recogniser
    }

    fn next(&self, state: &State) -> Option<Symbol> {
        self.grammar.rules[state.0].1.get(state.1).copied()
    }

    /// Adds what the readings of a new set lead to without a token.
    fn close(&mut self, start: Vec<State>) {
        let here = self.sets.len();
        let mut seen: BTreeSet<State> = start.iter().copied().collect();
        let mut list = start;
        let mut number = 0;
        while number < list.len() {
            let state = list[number];
            number += 1;
            let mut more = Vec::new();
            match self.next(&state) {
                Some(Symbol::Token(_)) => {}
                Some(Symbol::Rule(name)) => {
                    for &rule in &self.grammar.by_name[name] {
                        more.push((rule, 0, here));
                        // Only `Variables` can be empty, and its empty rule is read at once.
                        if self.grammar.rules[rule].1.is_empty() {
                            more.push((state.0, state.1 + 1, state.2));
                        }
                    }
                }
                None => {
                    let name = self.grammar.rules[state.0].0;
                    let origin = if state.2 == here { &list } else { &self.sets[state.2] };
                    for other in origin {
                        if self.next(other) == Some(Symbol::Rule(name)) {
                            more.push((other.0, other.1 + 1, other.2));
                        }
                    }
                }
            }
            for state in more {
                if seen.insert(state) {
                    list.push(state);
                }
            }
        }
        self.sets.push(list);
    }

    /// The kinds of tokens that some fitting text has next.
    fn possible(&self) -> BTreeSet<Kind> {
        let last = self.sets.last().unwrap();
        last.iter()
            .filter_map(|state| match self.next(state) {
                Some(Symbol::Token(kind)) => Some(kind),
                _ => None,
            })
            .collect()
    }

    /// Is the text whole here?
    fn complete(&self) -> bool {
        let last = self.sets.last().unwrap();
        last.iter().any(|state| self.grammar.rules[state.0].0 == 0 && self.next(state).is_none() && state.2 == 0)
    }

    /// Reads a token, which is one of the possible ones.
    fn read(&mut self, kind: Kind) {
        let last = self.sets.last().unwrap();
        let moved = last
            .iter()
            .filter(|state| self.next(state) == Some(Symbol::Token(kind)))
            .map(|state| (state.0, state.1 + 1, state.2))
            .collect();
        self.close(moved);
    }
}

/// The place of the fault, if the text has one.
fn fault(grammar: &Grammar, tokens: &[Token], length: usize) -> Option<usize> {
    let mut recogniser = Recogniser::new(grammar);
    for token in tokens {
        if !recogniser.possible().contains(&token.kind) {
            return Some(token.start);
        }
        recogniser.read(token.kind);
    }
    (!recogniser.complete()).then_some(length)
}

fn compare(grammar: &Grammar, text: &[u8]) -> Option<usize> {
    let tokens = split(text);
    let expected = fault(grammar, &tokens, text.len());
    let read = reader::read(&tokens, text.len()).err();
    assert_eq!(read, expected, "{}", String::from_utf8_lossy(text));
    expected
}

#[test]
fn random_and_damaged_texts() {
    let grammar = grammar();
    let mut faults = 0;
    for seed in 0..400 {
        let mut random = Random::new(seed);
        let text = if random.chance(80) { lively(&mut random) } else { edge(&mut random) };
        if split(&text).len() > 700 {
            continue;
        }
        compare(&grammar, &text);
        for _ in 0..4 {
            let text = damaged(&mut random, &text);
            faults += usize::from(compare(&grammar, &text).is_some());
        }
    }
    println!("{faults} texts with a fault");
    assert!(faults > 300);
}

/// Walks over the grammar: mostly tokens that fit, so that the walk goes on, those of channels and rates more often.
#[test]
fn walks_through_braces() {
    let grammar = grammar();
    let likely = ["name", "7", "1.5", "-", "*", "+", "/", "(", ")", ",", "!", "?", "#", "}", "abs", "@", "~"];
    let (mut faults, mut fitting) = (0, 0);
    for seed in 0..4_000 {
        let mut random = Random::new(seed);
        let mut text = b"A [ ] = { ".to_vec();
        for _ in 0..1 + random.below(16) {
            let possible = possible_after(&grammar, &text);
            let words: &[&str] = if random.chance(90) { &likely } else { &WORDS };
            let fits: Vec<&str> =
                words.iter().copied().filter(|word| possible.contains(&split(word.as_bytes())[0].kind)).collect();
            let among = if fits.is_empty() || random.chance(5) { words } else { &fits[..] };
            text.extend(format!("{} ", random.pick(among)).as_bytes());
        }
        // The end of what fits so far, and a whole text where it does.
        for end in ["", "}; A[];", "![1],1}; A[];", "?[1](x),1.5*7}; A[];"] {
            let whole = [&text[..], end.as_bytes()].concat();
            match compare(&grammar, &whole) {
                Some(_) => faults += 1,
                None => fitting += 1,
            }
        }
    }
    println!("{faults} texts with a fault, {fitting} that fit");
    assert!(faults > 8_000 && fitting > 300);
}

/// The kinds of tokens that some fitting text has after this one; none if it doesn't begin any.
fn possible_after(grammar: &Grammar, text: &[u8]) -> BTreeSet<Kind> {
    let mut recogniser = Recogniser::new(grammar);
    for token in split(text) {
        if !recogniser.possible().contains(&token.kind) {
            return BTreeSet::new();
        }
        recogniser.read(token.kind);
    }
    recogniser.possible()
}

/// After each beginning of some texts: each kind of token, possible or not.
#[test]
fn every_token_after_every_beginning() {
    let grammar = grammar();
    let kinds: BTreeMap<Kind, &str> = WORDS.iter().map(|word| (split(word.as_bytes())[0].kind, *word)).collect();
    assert_eq!(kinds.len(), WORDS.len());
    let mut texts: Vec<Vec<u8>> = (0..12).map(|seed| lively(&mut Random::new(1_000 + seed))).collect();
    texts.push(
        b"v=-1.5;A[n,m]=[~n<1&m>=2|n==abs(m)&n!=1]->{@c?[1..2\\3 union n inter m,4](x,y),-2.5*max(1,n)}.({a,1}+\
          {~n+1?[1],v}.(B[]||(A[1,n*2]))||B[])+{c,n*-1}||{(1)![n,m],1}.[n<=m]->{1#[-1],1};B[]={c?[1](z),1};\
          B[]={go,1};2*A[1,-2]||B[]||3*B[];"
            .to_vec(),
    );
    texts.push(
        b"A[n]={a,1*2*3,b![1],1}+{a,n*(n)}.{a,1.5*n}+{a,-1?[n](x),2}+{a,(n)#[1],n}+{a,abs(n),n-1?[1,2](x,y),1}+\
          {1,a![1],1}+{@a,b,1*n![1],1}+{@1,c?[1],1}+{~a,n+1?[1],1}+{~1,2,3?[4],5};A[1];"
            .to_vec(),
    );
    let mut tried = 0;
    for text in texts {
        let words: Vec<&[u8]> = split(&text).iter().map(|token| &text[token.start..token.end]).collect();
        if words.len() > 400 {
            continue;
        }
        let mut recogniser = Recogniser::new(&grammar);
        let mut beginning: Vec<u8> = Vec::new();
        for number in 0..=words.len() {
            let possible = recogniser.possible();
            for (kind, word) in &kinds {
                let mut tried_text = beginning.clone();
                tried_text.extend(word.as_bytes());
                let tokens = split(&tried_text);
                let place = reader::read(&tokens, tried_text.len()).err();
                if possible.contains(kind) {
                    assert!(place.is_none() || place == Some(tried_text.len()), "{kind:?} fits");
                } else {
                    assert_eq!(place, Some(beginning.len()), "{kind:?} doesn't fit");
                }
                tried += 1;
            }
            let place = reader::read(&split(&beginning), beginning.len()).err();
            assert_eq!(place.is_none(), recogniser.complete());
            if number < words.len() {
                recogniser.read(split(words[number])[0].kind);
                beginning.extend(words[number]);
                beginning.push(b' ');
            }
        }
    }
    println!("{tried} beginnings tried");
}
