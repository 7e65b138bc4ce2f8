//! Question 7: names, numbers and lists within their limits.

use crate::syntax::{Item, Number, Tree};
use crate::tokens::{Kind, Token, TokenId};

/// The range of values and of whole numbers in a text (02, note 1).
pub const LOWEST: i64 = -HIGHEST;
pub const HIGHEST: i64 = 1_099_511_627_775;

const NAME_BYTES: usize = 16;
const DIGITS_BEFORE: usize = 6;
const DIGITS_AFTER: usize = 4;
const COUNT: i64 = 256;
const VARIABLES: usize = 64;
/// The most definitions, and so the numbers of a report.
pub const DEFINITIONS: usize = 64;
const PARAMETERS: usize = 6;
const LOCALS: usize = 8;
const BRANCHES: usize = 16;

/// The place of the first token beyond a limit, if there is one.
pub fn first_beyond(text: &[u8], tokens: &[Token], tree: &Tree) -> Option<usize> {
    let mut beyond: Vec<TokenId> = Vec::new();

    for (id, token) in tokens.iter().enumerate() {
        if token.kind == Kind::Name && token.word(text).len() > NAME_BYTES {
            beyond.push(id);
        }
    }
    for number in &tree.numbers {
        if !number_fits(text, tokens, number) {
            beyond.push(number.token);
        }
    }
    if let Some(variable) = tree.variables.get(VARIABLES) {
        beyond.push(variable.name);
    }
    if let Some(definition) = tree.definitions.get(DEFINITIONS) {
        beyond.push(definition.name);
    }
    for definition in &tree.definitions {
        beyond.extend(definition.parameters.get(PARAMETERS));
    }
    for sum in &tree.sums {
        if let Some(branch) = sum.branches.get(BRANCHES) {
            beyond.push(branch.first);
        }
    }
    beyond.extend(locals_beyond(tree));

    beyond.into_iter().min().map(|id| tokens[id].start)
}

fn number_fits(text: &[u8], tokens: &[Token], number: &Number) -> bool {
    let token = tokens[number.token];
    let word = token.word(text);
    if token.kind == Kind::Decimal {
        let (before, after) = decimal_parts(word);
        before.len() <= DIGITS_BEFORE && after.len() <= DIGITS_AFTER
    } else if number.count {
        whole_value(word, false) <= COUNT
    } else {
        is_value(whole_value(word, number.negative))
    }
}

/// Does the number lie in the range of values?
pub fn is_value(number: i64) -> bool {
    (LOWEST..=HIGHEST).contains(&number)
}

/// The value of a whole number. Beyond the range it stays one past its end.
pub fn whole_value(digits: &[u8], negative: bool) -> i64 {
    let mut value = 0;
    for digit in digits {
        value = (value * 10 + i64::from(digit - b'0')).min(HIGHEST + 1);
    }
    if negative {
        -value
    } else {
        value
    }
}

/// The digits before and after the point.
pub fn decimal_parts(word: &[u8]) -> (&[u8], &[u8]) {
    let point = word.iter().take_while(|&&byte| byte != b'.').count();
    (&word[..point], &word[(point + 1).min(word.len())..])
}

/// The bound names that are one local too many.
fn locals_beyond(tree: &Tree) -> Vec<TokenId> {
    let mut beyond = Vec::new();
    // How many locals each sum has in scope. A sum's number is larger than that of the sum in
    // whose continuation it stands, so each is settled before it is looked at.
    let mut locals = vec![0; tree.sums.len()];
    for definition in &tree.definitions {
        for &sum in &definition.sums {
            locals[sum] = definition.parameters.len();
        }
    }
    for (number, sum) in tree.sums.iter().enumerate() {
        for branch in &sum.branches {
            let bound = branch.action.bound();
            let together = locals[number] + bound.len();
            if together > LOCALS {
                beyond.extend(bound.get(LOCALS.saturating_sub(locals[number])));
            }
            for item in &branch.continuation {
                if let Item::Sum(next) = item {
                    locals[*next] = together;
                }
            }
        }
    }
    beyond
}
