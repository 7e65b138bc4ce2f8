//! Values of expressions, sets, conditions and rates. `None` is: no value.

use crate::limits::is_value;
use crate::model::{Atom, Condition, Expression, Rate, Relation, Scale, Set, SetPart, Term};
use crate::syntax::{ProductSign, RelationSign, SetSign, SumSign};

/// The largest rate, in ten-thousandths.
const RATE: i64 = 1_000_000_000;

/// The result of an operation on two values, if it is a value. 128 bits hold every product.
fn in_range(result: i128) -> Option<i64> {
    i64::try_from(result).ok().filter(|&value| is_value(value))
}

pub fn expression(expression: &Expression, locals: &[i64]) -> Option<i64> {
    let mut value = term(&expression.first, locals)?;
    for (sign, next) in &expression.rest {
        let (left, right) = (i128::from(value), i128::from(term(next, locals)?));
        value = in_range(match sign {
            SumSign::Plus => left + right,
            SumSign::Minus => left - right,
        })?;
    }
    Some(value)
}

pub fn expressions(expressions: &[Expression], locals: &[i64]) -> Option<Vec<i64>> {
    expressions.iter().map(|one| expression(one, locals)).collect()
}

fn term(term: &Term, locals: &[i64]) -> Option<i64> {
    let mut value = atom(&term.first, locals)?;
    for (sign, next) in &term.rest {
        let (left, right) = (i128::from(value), i128::from(atom(next, locals)?));
        value = in_range(match sign {
            ProductSign::Times => left * right,
            ProductSign::Over if right == 0 => return None,
            ProductSign::Over => divided(left, right),
        })?;
    }
    Some(value)
}

/// The quotient rounded down, whatever the signs (02, note 3). The divisor isn't 0.
fn divided(left: i128, right: i128) -> i128 {
    // With a divisor above 0 the Euclidean quotient is the one rounded down.
    if right > 0 {
        left.div_euclid(right)
    } else {
        (-left).div_euclid(-right)
    }
}

fn atom(atom: &Atom, locals: &[i64]) -> Option<i64> {
    match atom {
        Atom::Number(number) => Some(*number),
        Atom::Local(local) => Some(locals[*local]),
        // The range is symmetric.
        Atom::Abs(inner) => Some(expression(inner, locals)?.abs()),
        Atom::Max(two) => {
            let (left, right) = (expression(&two.0, locals)?, expression(&two.1, locals)?);
            Some(left.max(right))
        }
        Atom::Min(two) => {
            let (left, right) = (expression(&two.0, locals)?, expression(&two.1, locals)?);
            Some(left.min(right))
        }
        Atom::Brackets(inner) => expression(inner, locals),
    }
}

/// Is the condition true? `&` and `|` skip their right side when the left decides.
pub fn condition(condition: &Condition, locals: &[i64]) -> Option<bool> {
    for all in &condition.any {
        if conjunction(all, locals)? {
            return Some(true);
        }
    }
    Some(false)
}

fn conjunction(all: &[Relation], locals: &[i64]) -> Option<bool> {
    for one in all {
        if !relation(one, locals)? {
            return Some(false);
        }
    }
    Some(true)
}

fn relation(relation: &Relation, locals: &[i64]) -> Option<bool> {
    let left = expression(&relation.left, locals)?;
    let right = expression(&relation.right, locals)?;
    let holds = match relation.sign {
        RelationSign::Less => left < right,
        RelationSign::LessEqual => left <= right,
        RelationSign::Greater => left > right,
        RelationSign::GreaterEqual => left >= right,
        RelationSign::Equal => left == right,
        RelationSign::Unequal => left != right,
    };
    Some(holds != relation.negated)
}

/// A rate in ten-thousandths. Scale and product lie in the range, or there is no value.
pub fn rate(rate: &Rate, locals: &[i64]) -> Option<i64> {
    let scale = match rate.scale {
        Scale::Fixed(scale) => scale,
        Scale::Local(local) => locals[local] * 10_000,
    };
    let scale = in_rate_range(i128::from(scale))?;
    match &rate.atom {
        None => Some(scale),
        Some(times) => in_rate_range(i128::from(scale) * i128::from(atom(times, locals)?)),
    }
}

fn in_rate_range(result: i128) -> Option<i64> {
    i64::try_from(result).ok().filter(|rate| (0..=RATE).contains(rate))
}

/// A set whose parts have their values: the first range, then signs and ranges.
#[derive(Debug, Clone)]
pub struct Ranges {
    first: (i64, i64),
    rest: Vec<(SetSign, (i64, i64))>,
}

pub fn set(set: &Set, locals: &[i64]) -> Option<Ranges> {
    let first = set_part(&set.first, locals)?;
    let mut rest = Vec::new();
    for (sign, part) in &set.rest {
        rest.push((*sign, set_part(part, locals)?));
    }
    Some(Ranges { first, rest })
}

pub fn sets(sets: &[Set], locals: &[i64]) -> Option<Vec<Ranges>> {
    sets.iter().map(|one| set(one, locals)).collect()
}

fn set_part(part: &SetPart, locals: &[i64]) -> Option<(i64, i64)> {
    match part {
        SetPart::One(value) => {
            let value = expression(value, locals)?;
            Some((value, value))
        }
        SetPart::Range(low, high) => Some((expression(low, locals)?, expression(high, locals)?)),
    }
}

impl Ranges {
    pub fn holds(&self, value: i64) -> bool {
        let within = |(low, high): (i64, i64)| low <= value && value <= high;
        let mut inside = within(self.first);
        for &(sign, range) in &self.rest {
            inside = match sign {
                SetSign::Without => inside && !within(range),
                SetSign::Union => inside || within(range),
                SetSign::Inter => inside && within(range),
            };
        }
        inside
    }
}
