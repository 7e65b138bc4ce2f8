//! Gates as alternatives of relations, without brackets.

use super::say::Trouble;
use super::tree::{At, Condition, Expr};

/// Alternatives of a gate, at most.
const MOST: usize = 64;

/// Relations that hold together.
pub type Relations = Vec<(Expr, &'static str, Expr)>;

/// The alternatives of some gates, each with one more condition.
pub fn narrowed(gates: &[Relations], condition: &At<Condition>) -> Result<Vec<Relations>, Trouble> {
    if gates.len().saturating_mul(count(&condition.it, true)) > MOST {
        return Err(Trouble { place: condition.place, what: "the condition has too many alternatives".to_string() });
    }
    let more = alternatives(&condition.it, true);
    let each =
        gates.iter().flat_map(|gate| more.iter().map(move |relations| [gate.clone(), relations.clone()].concat()));
    Ok(each.collect())
}

/// A condition as alternatives of relations that hold together; of its opposite where it isn't to hold.
fn alternatives(condition: &Condition, holds: bool) -> Vec<Relations> {
    match (condition, holds) {
        (Condition::Relation(left, sign, right), _) => {
            let sign = if holds { sign } else { opposite(sign) };
            vec![vec![(left.clone(), sign, right.clone())]]
        }
        (Condition::Not(inside), _) => alternatives(inside, !holds),
        (Condition::Or(left, right), true) | (Condition::And(left, right), false) => {
            [alternatives(left, holds), alternatives(right, holds)].concat()
        }
        (Condition::And(left, right), true) | (Condition::Or(left, right), false) => {
            let (left, right) = (alternatives(left, holds), alternatives(right, holds));
            left.iter().flat_map(|one| right.iter().map(move |other| [one.clone(), other.clone()].concat())).collect()
        }
    }
}

/// How many alternatives there are.
fn count(condition: &Condition, holds: bool) -> usize {
    match (condition, holds) {
        (Condition::Relation(..), _) => 1,
        (Condition::Not(inside), _) => count(inside, !holds),
        (Condition::Or(left, right), true) | (Condition::And(left, right), false) => {
            count(left, holds).saturating_add(count(right, holds))
        }
        (Condition::And(left, right), true) | (Condition::Or(left, right), false) => {
            count(left, holds).saturating_mul(count(right, holds))
        }
    }
}

fn opposite(sign: &str) -> &'static str {
    match sign {
        "<" => ">=",
        "<=" => ">",
        ">" => "<=",
        ">=" => "<",
        "==" => "!=",
        _ => "==",
    }
}
