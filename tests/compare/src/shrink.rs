//! Makes a list of calls on which two engines differ as short as can be had.

use crate::compare::{self, Difference};
use crate::met::Met;
use second::generate::{Buffers, Call, Depth, Draw, Engine, Word, RIGHT};
use second::tokens::{self, Kind};
use second::{model, MODEL, SAVES, SEARCH, STATE};

/// How many calls are made on shorter lists, at most, what a list costs besides its calls, and what a word of a run does.
const WORK: usize = 1_200_000;
const LIST: usize = 20;
const WORD: usize = 4;
/// Runs of at most so many calls are tried wherever they begin.
const CALLS: usize = 4;
/// How many tokens in a row are taken out of a text, at most, once halves no longer help.
const TOKENS: usize = 24;
/// A cut from a token of the first kind to one of the others often leaves a legal text: it takes
/// out definitions, processes, branches, values, continuations.
const CUTS: [(Kind, &[Kind]); 6] = [
    (Kind::Semicolon, &[Kind::Semicolon]),
    (Kind::Parallel, &[Kind::Parallel, Kind::Semicolon]),
    (Kind::Plus, &[Kind::Plus, Kind::Semicolon]),
    (Kind::Point, &[Kind::Plus, Kind::Semicolon, Kind::Parallel, Kind::CloseRound]),
    (Kind::Comma, &[Kind::Comma, Kind::CloseSquare]),
    (Kind::OpenRound, &[Kind::OpenRound]),
];
/// How many of the tokens that may end a cut are tried.
const ENDS: usize = 3;
/// Short models that often do in the place of a text.
const SHORT: [&str; 5] = [
    "A[]={a,1};A[];",
    "A[]={a,1}.A[];A[];",
    "A[]={c![1],1};A[];",
    "A[]={c![1],1}.{c#[1],1};A[];",
    "A[]={@c![1],1}+{@c?[1],1};2*A[];",
];
/// At most so many steps are tried between the opening of a short model and the last call.
const STEPS: usize = 2;
/// A short model with a local, to try each change of a state on by itself.
const CHANGED: &str = "A[n]={a,1};A[0];";

struct Shrinker<'a> {
    tried: &'a Engine,
    oracle: &'a Engine,
    /// Calls that may still be made.
    left: usize,
    best: Difference,
}

/// The same difference, or another one, on a shorter list.
pub fn shrink(tried: &Engine, oracle: &Engine, found: Difference) -> Difference {
    let mut shrinker = Shrinker { tried, oracle, left: WORK, best: found };
    shrinker.hand_in();
    shrinker.try_short_models();
    loop {
        let before = shrinker.size();
        shrinker.drop_calls();
        shrinker.shorten_texts();
        shrinker.lower_draws();
        shrinker.lower_limits();
        shrinker.drop_words();
        shrinker.drop_waiting();
        shrinker.lower_depths();
        if shrinker.size() >= before || shrinker.left == 0 {
            return shrinker.best;
        }
    }
}

impl Shrinker<'_> {
    fn size(&self) -> usize {
        size(&self.best.made)
    }

    /// Takes the list in place of the best one if the engines differ on it.
    fn takes(&mut self, calls: &[Call]) -> bool {
        if self.left == 0 {
            return false;
        }
        let words = |call: &Call| if let Call::Run { words, .. } = call { WORD * words.len() } else { 0 };
        self.left = self.left.saturating_sub(LIST + calls.iter().map(|call| 1 + words(call)).sum::<usize>());
        match compare::run(self.tried, self.oracle, calls, &mut Met::default()) {
            Ok(()) => false,
            Err(difference) => {
                self.best = difference;
                true
            }
        }
    }

    /// Tries the last call by itself: an opening of the text that the model buffer then holds, the
    /// state's numbers, the call.
    fn hand_in(&mut self) {
        let Some((last, before)) = self.best.made.split_last() else { return };
        let (mut held, mut opened) = (Buffers::default(), Buffers::default());
        for call in before {
            held.make(self.oracle, call);
        }
        let Some(text) = model::held_text(&held.model[..MODEL]) else { return };
        let mut calls = vec![Call::Open { text: text.to_vec(), lengths: RIGHT }];
        opened.make(self.oracle, &calls[0]);
        let changed = (0..STATE).filter(|&place| opened.state[place] != held.state[place]);
        calls.extend(changed.map(|place| Call::SetState { place, number: held.state[place] }));
        let changed = (0..SAVES).filter(|&place| held.saves[place] != 0);
        calls.extend(changed.map(|place| Call::SetSaves { place, number: held.saves[place] }));
        let changed = (0..SEARCH).filter(|&place| held.search[place] != 0);
        calls.extend(changed.map(|place| Call::SetSearch { place, number: held.search[place] }));
        if held.clock != opened.clock {
            calls.push(Call::SetClock(held.clock));
        }
        calls.push(last.clone());
        if calls.len() < self.best.made.len() {
            self.takes(&calls);
        }
    }

    /// Tries the last call after a short model and a little more, in the place of all calls before it.
    fn try_short_models(&mut self) {
        let Some((last, before)) = self.best.made.split_last() else { return };
        let open = |text: &str| Call::Open { text: text.into(), lengths: RIGHT };
        let step = Call::Step { lengths: RIGHT, draw: Draw::Exactly(0) };
        let mut lists = Vec::new();
        for text in SHORT {
            lists.extend((0..=STEPS).map(|steps| [vec![open(text)], vec![step.clone(); steps]].concat()));
        }
        let changes = before.iter().filter(|call| call.lengths().is_none());
        lists.extend(changes.map(|change| vec![open(CHANGED), change.clone()]));
        let last = last.clone();
        for mut calls in lists {
            calls.push(last.clone());
            if size(&calls) < self.size() && self.takes_redrawn(calls) {
                return;
            }
        }
    }

    fn drop_calls(&mut self) {
        let mut piece = self.best.made.len().div_ceil(2);
        while piece > CALLS {
            self.drop_runs(piece, piece);
            piece /= 2;
        }
        for run in (1..=CALLS).rev() {
            self.drop_runs(run, 1);
        }
    }

    /// Tries each run of so many calls, its start moved on by `stride`.
    fn drop_runs(&mut self, run: usize, stride: usize) {
        let mut start = 0;
        while start < self.best.made.len() {
            let mut calls = self.best.made.clone();
            calls.drain(start..(start + run).min(calls.len()));
            if !self.takes(&calls) {
                start += stride;
            }
        }
    }

    fn shorten_texts(&mut self) {
        let mut call = 0;
        while call < self.best.made.len() {
            self.shorten_text(call);
            call += 1;
        }
    }

    fn text(&self, call: usize) -> Option<Vec<u8>> {
        match self.best.made.get(call)? {
            Call::Open { text, .. } | Call::Steady { text, .. } => Some(text.clone()),
            _ => None,
        }
    }

    /// Puts a short model in the place of a text, or takes pieces out of it: blanks and comments,
    /// halves, quarters and so on, parts from one sign to the next like it, each short run of
    /// tokens, single bytes.
    fn shorten_text(&mut self, call: usize) {
        let Some(text) = self.text(call) else { return };
        if SHORT.iter().any(|short| short.len() < text.len() && self.takes_text(call, short.as_bytes().to_vec())) {
            return;
        }
        let words: Vec<&[u8]> = tokens::split(&text).iter().map(|token| token.word(&text)).collect();
        self.takes_text(call, words.concat());
        self.takes_text(call, words.join(&b' '));
        let mut piece = words.len().div_ceil(2);
        while piece > TOKENS {
            self.cut_runs(call, piece, piece);
            piece /= 2;
        }
        let mut size = usize::MAX;
        while self.size() < size {
            size = self.size();
            while self.cut_front(call) {}
            for (from, ends) in CUTS {
                self.cut_parts(call, from, ends);
            }
        }
        for run in (1..=TOKENS).rev() {
            self.cut_runs(call, run, 1);
        }
        self.cut_bytes(call);
    }

    /// Tries the text without what comes before its first `;`, that one with it.
    fn cut_front(&mut self, call: usize) -> bool {
        let Some(text) = self.text(call) else { return false };
        let first = tokens::split(&text).into_iter().find(|token| token.kind == Kind::Semicolon);
        first.is_some_and(|token| self.takes_text(call, text[token.end..].to_vec()))
    }

    /// Tries each part of a text from a token of the one kind to the next ones of the others.
    fn cut_parts(&mut self, call: usize, from: Kind, ends: &[Kind]) {
        let mut part = 0;
        while let Some(text) = self.text(call) {
            let split = tokens::split(&text);
            let Some(start) = split.iter().filter(|token| token.kind == from).nth(part) else { return };
            let after = split.iter().filter(|token| token.start > start.start && ends.contains(&token.kind));
            let without = |end: usize| [&text[..start.start], &text[end..]].concat();
            let cut = after.take(ENDS).any(|end| self.takes_text(call, without(end.start)));
            if self.left == 0 || !cut {
                part += 1;
            }
        }
    }

    /// Tries each run of so many tokens, its start moved on by `stride`.
    fn cut_runs(&mut self, call: usize, run: usize, stride: usize) {
        let mut start = 0;
        while let Some(text) = self.text(call) {
            let places: Vec<usize> = tokens::split(&text).iter().map(|token| token.start).collect();
            let Some(&from) = places.get(start) else { return };
            let to = places.get(start + run).copied().unwrap_or(text.len());
            if self.left == 0 || !self.takes_text(call, [&text[..from], &text[to..]].concat()) {
                start += stride;
            }
        }
    }

    fn cut_bytes(&mut self, call: usize) {
        let mut place = 0;
        while let Some(mut text) = self.text(call).filter(|text| place < text.len()) {
            text.remove(place);
            if self.left == 0 || !self.takes_text(call, text) {
                place += 1;
            }
        }
    }

    fn takes_text(&mut self, call: usize, new: Vec<u8>) -> bool {
        let mut calls = self.best.made.clone();
        if let Some(Call::Open { text, .. } | Call::Steady { text, .. }) = calls.get_mut(call) {
            *text = new;
        }
        self.takes_redrawn(calls)
    }

    /// Takes the list as it is or with another last draw: it may choose another entry of a shorter text.
    fn takes_redrawn(&mut self, mut calls: Vec<Call>) -> bool {
        if self.takes(&calls) {
            return true;
        }
        for other in [Draw::Exactly(0), Draw::Last] {
            match calls.last_mut() {
                Some(Call::Step { draw, .. } | Call::Timed { draw, .. }) => *draw = other,
                _ => return false,
            }
            if self.takes(&calls) {
                return true;
            }
        }
        false
    }

    /// Tries each timed step and each run without the last of its waiting draws, or without any three of them.
    fn drop_waiting(&mut self) {
        let mut call = 0;
        while call < self.best.made.len() {
            let mut start = 0;
            while let Some(Call::Timed { waiting, .. } | Call::Run { waiting, .. }) = self.best.made.get(call) {
                let (length, last) = (waiting.len(), waiting.len().saturating_sub(1));
                if start > length || length == 0 {
                    break;
                }
                let mut calls = self.best.made.clone();
                if let Call::Timed { waiting, .. } | Call::Run { waiting, .. } = &mut calls[call] {
                    waiting.drain(if start == 0 { last..length } else { start - 1..(start + 2).min(length) });
                }
                if !self.takes(&calls) {
                    start += 1;
                }
            }
            call += 1;
        }
    }

    /// Tries each run without half of its words, a quarter and so on, and with 0 in the place of each.
    fn drop_words(&mut self) {
        for call in 0..self.best.made.len() {
            let Some(Call::Run { words, .. }) = self.best.made.get(call) else { continue };
            let mut piece = words.len().div_ceil(2);
            while piece > 0 {
                self.drop_pieces(call, piece);
                piece /= 2;
            }
            let mut place = 0;
            while let Some(Call::Run { words, .. }) = self.best.made.get(call).filter(|_| self.left > 0) {
                let Some(&word) = words.get(place) else { break };
                if word != Word::Exactly(0) {
                    self.takes_run(call, |words, _, _| words[place] = Word::Exactly(0));
                }
                place += 1;
            }
        }
    }

    /// Tries a run without each piece of so many words.
    fn drop_pieces(&mut self, call: usize, piece: usize) {
        let mut start = 0;
        while let Some(Call::Run { words, .. }) = self.best.made.get(call).filter(|_| self.left > 0) {
            let end = (start + piece).min(words.len());
            if start >= end {
                return;
            }
            if !self.takes_run(call, |words, _, _| drop(words.drain(start..end))) {
                start += piece;
            }
        }
    }

    /// Takes the list with a run changed in its words, its waiting draws and its limit, if it is one.
    fn takes_run(&mut self, call: usize, change: impl FnOnce(&mut Vec<Word>, &mut Vec<u16>, &mut u64)) -> bool {
        let mut calls = self.best.made.clone();
        let Some(Call::Run { words, waiting, limit, .. }) = calls.get_mut(call) else { return false };
        change(words, waiting, limit);
        self.takes(&calls)
    }

    /// Tries a limit of few steps for each run, halves of its waiting draws, and all the room there is.
    fn lower_limits(&mut self) {
        for call in 0..self.best.made.len() {
            for lower in 0..=3 {
                let Some(&Call::Run { limit, .. }) = self.best.made.get(call) else { break };
                if limit > lower && self.takes_run(call, |_, _, limit| *limit = lower) {
                    break;
                }
            }
            while let Some(Call::Run { waiting, .. }) = self.best.made.get(call).filter(|_| self.left > 0) {
                let half = waiting.len() / 2;
                if half == 0 || !self.takes_run(call, |_, waiting, _| waiting.truncate(half)) {
                    break;
                }
            }
            let mut calls = self.best.made.clone();
            if let Some(Call::Run { lengths, .. }) = calls.get_mut(call).filter(|_| call + 1 < self.best.made.len()) {
                *lengths = RIGHT;
                self.takes(&calls);
            }
        }
    }

    /// Tries the least depths of each search, and the least numbers to carry it on by.
    fn lower_depths(&mut self) {
        for call in 0..self.best.made.len() {
            for lower in 1..=3 {
                let mut calls = self.best.made.clone();
                match calls.get_mut(call) {
                    Some(Call::Search { depth, .. } | Call::Begin { depth, .. }) if *depth != Depth::Exactly(lower) => {
                        *depth = Depth::Exactly(lower);
                    }
                    Some(Call::Carry { number, .. }) if *number > lower => *number = lower,
                    _ => break,
                }
                if self.takes(&calls) {
                    break;
                }
            }
        }
    }

    fn lower_draws(&mut self) {
        let mut call = 0;
        while call < self.best.made.len() {
            for lower in [0, 1] {
                let mut calls = self.best.made.clone();
                match &mut calls[call] {
                    Call::Step { draw, .. } | Call::Timed { draw, .. } if *draw != Draw::Exactly(lower) => {
                        *draw = Draw::Exactly(lower)
                    }
                    _ => break,
                }
                if self.takes(&calls) {
                    break;
                }
            }
            call += 1;
        }
    }
}

/// How long a list is: calls, bytes of texts, digits of draws.
fn size(calls: &[Call]) -> usize {
    let size = |call: &Call| match call {
        Call::Open { text, .. } | Call::Steady { text, .. } => 10 + text.len(),
        Call::Step { draw: Draw::Exactly(draw), .. } => 10 + draw.to_string().len(),
        Call::Timed { draw: Draw::Exactly(draw), waiting, .. } => 10 + draw.to_string().len() + 10 * waiting.len(),
        Call::Run { words, waiting, limit, .. } => {
            let digits = |word: &Word| if let Word::Exactly(word) = word { word.to_string().len() } else { 20 };
            let words: usize = words.iter().map(|word| 10 + digits(word)).sum();
            10 + words + 10 * waiting.len() + limit.to_string().len()
        }
        Call::Carry { number, .. } => 10 + number.to_string().len(),
        Call::Search { name, depth: Depth::Exactly(depth), .. }
        | Call::Begin { name, depth: Depth::Exactly(depth), .. } => 10 + name.len() + depth.to_string().len(),
        Call::Save { name, .. } | Call::Return { name, .. } | Call::Forget { name, .. } => 10 + name.len(),
        _ => 10,
    };
    calls.iter().map(size).sum()
}
