//! A receive whose rate uses a name that it binds, as a branch for each value of a short range: our texts have no such
//! rate.

use super::linear::Linear;
use super::ratio::Ratio;
use super::tree::*;

/// Values that are followed, which is how many branches a sum of our texts may have.
const MOST: i128 = 16;

/// The receive and its rate for each value of the names that the rate uses; nothing where there are no such names, or
/// their values aren't known.
pub fn each_value(action: &Action, rate: &Expr, known: &dyn Fn(&str) -> Option<Ratio>) -> Option<Vec<(Action, Expr)>> {
    let Action::Take(_, _, sets, names) = action else { return None };
    let used: Vec<usize> = (0..names.len().min(sets.len())).filter(|&at| uses(rate, &names[at])).collect();
    let mut all = vec![(action.clone(), rate.clone())];
    for &at in &used {
        let values = values(&sets[at], known)?;
        if (all.len() * values.len()) as i128 > MOST {
            return None;
        }
        all = all.iter().flat_map(|one| values.iter().map(move |value| with_value(one, at, value))).collect();
    }
    (!used.is_empty()).then_some(all)
}

/// The receive of a value alone, and the rate with that value in the place of its name.
fn with_value((action, rate): &(Action, Expr), at: usize, value: &Expr) -> (Action, Expr) {
    let (mut action, mut rate) = (action.clone(), rate.clone());
    if let Action::Take(_, _, sets, names) = &mut action {
        sets[at] = Set(vec![vec![vec![Range { first: value.clone(), last: None }]]]);
        rate = folded(replaced(&rate, &names[at], value));
    }
    (action, rate)
}

/// The values of a set that is one value, or one range of so many that it is known how many.
fn values(set: &Set, known: &dyn Fn(&str) -> Option<Ratio>) -> Option<Vec<Expr>> {
    let [term] = &set.0[..] else { return None };
    let [factor] = &term[..] else { return None };
    let [Range { first, last }] = &factor[..] else { return None };
    let Some(last) = last else { return Some(vec![first.clone()]) };
    let given = |expr: &Expr| Linear::of(&with_known(expr, known));
    let apart = given(last)?.plus(given(first)?, Ratio::whole(-1))?.alone()?;
    if !apart.is_whole() || !(0..MOST).contains(&apart.above) {
        return None;
    }
    let value = |step| Linear::of(first)?.plus(Linear::of(&Expr::Number(Ratio::whole(step)))?, Ratio::whole(1));
    (0..=apart.above).map(|step| value(step).map(|value| value.written())).collect()
}

/// The expression with other expressions in the place of some names.
fn turned(expr: &Expr, name: &dyn Fn(&str) -> Option<Expr>) -> Expr {
    match expr {
        Expr::Number(_) => expr.clone(),
        Expr::Name(word) => name(word).unwrap_or_else(|| expr.clone()),
        Expr::Op(sign, left, right) => Expr::Op(*sign, Box::new(turned(left, name)), Box::new(turned(right, name))),
        Expr::Fun(word, parts) => Expr::Fun(word.clone(), parts.iter().map(|part| turned(part, name)).collect()),
    }
}

fn replaced(expr: &Expr, name: &str, value: &Expr) -> Expr {
    turned(expr, &|word| (word == name).then(|| value.clone()))
}

fn with_known(expr: &Expr, known: &dyn Fn(&str) -> Option<Ratio>) -> Expr {
    turned(expr, &|word| known(word).map(Expr::Number))
}

/// The expression with a number for each part that is the same whatever its names are.
fn folded(expr: Expr) -> Expr {
    let expr = match expr {
        Expr::Op(sign, left, right) => Expr::Op(sign, Box::new(folded(*left)), Box::new(folded(*right))),
        Expr::Fun(name, parts) => Expr::Fun(name, parts.into_iter().map(folded).collect()),
        _ => return expr,
    };
    Linear::of(&expr).and_then(|linear| linear.alone()).map_or(expr, Expr::Number)
}

pub fn uses(expr: &Expr, name: &str) -> bool {
    match expr {
        Expr::Number(_) => false,
        Expr::Name(other) => other == name,
        Expr::Op(_, left, right) => uses(left, name) || uses(right, name),
        Expr::Fun(_, arguments) => arguments.iter().any(|argument| uses(argument, name)),
    }
}
