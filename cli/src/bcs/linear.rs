//! Expressions that are sums of names times constants, to see what of them is constant.

use super::ratio::{Ratio, ONE};
use super::tree::Expr;
use std::collections::BTreeMap;

/// A constant and the factor of each name; none is zero.
pub struct Linear {
    constant: Ratio,
    factors: BTreeMap<String, Ratio>,
}

impl Linear {
    /// Nothing for a product of names, or where a number is too large.
    pub fn of(expr: &Expr) -> Option<Linear> {
        match expr {
            Expr::Number(number) => Some(Linear { constant: *number, factors: BTreeMap::new() }),
            Expr::Name(name) => {
                Some(Linear { constant: Ratio::whole(0), factors: BTreeMap::from([(name.clone(), ONE)]) })
            }
            Expr::Op('+', left, right) => Linear::of(left)?.plus(Linear::of(right)?, ONE),
            Expr::Op('-', left, right) => Linear::of(left)?.plus(Linear::of(right)?, Ratio::whole(-1)),
            Expr::Op('*', left, right) => {
                let (left, right) = (Linear::of(left)?, Linear::of(right)?);
                match (left.alone(), right.alone()) {
                    (Some(factor), _) => right.times(factor),
                    (_, Some(factor)) => left.times(factor),
                    _ => None,
                }
            }
            _ => None,
        }
    }

    /// The constant, where there is no name.
    pub fn alone(&self) -> Option<Ratio> {
        self.factors.is_empty().then_some(self.constant)
    }

    fn times(self, factor: Ratio) -> Option<Linear> {
        Linear { constant: Ratio::whole(0), factors: BTreeMap::new() }.plus(self, factor)
    }

    /// The other as often as the factor says, and this.
    pub fn plus(mut self, other: Linear, factor: Ratio) -> Option<Linear> {
        self.constant = self.constant.plus(other.constant.times(factor)?)?;
        for (name, count) in other.factors {
            let before = self.factors.remove(&name).unwrap_or(Ratio::whole(0));
            let after = before.plus(count.times(factor)?)?;
            if after.above != 0 {
                self.factors.insert(name, after);
            }
        }
        Some(self)
    }

    /// What is added first, then what is taken away; names before the constant.
    pub fn written(&self) -> Expr {
        let op = |sign, left, right| Expr::Op(sign, Box::new(left), Box::new(right));
        let (mut added, mut taken) = (Vec::new(), Vec::new());
        let names = self.factors.iter().map(|(name, factor)| (*factor, Some(name)));
        for (factor, name) in names.chain([(self.constant, None)]) {
            let size = Ratio { above: factor.above.saturating_abs(), ..factor };
            let term = match name {
                Some(name) if size == ONE => Expr::Name(name.clone()),
                Some(name) => op('*', Expr::Number(size), Expr::Name(name.clone())),
                None => Expr::Number(size),
            };
            match factor.above {
                0 => {}
                above if above > 0 => added.push(term),
                _ => taken.push(term),
            }
        }
        let sum = added.into_iter().reduce(|left, right| op('+', left, right)).unwrap_or(Expr::Number(Ratio::whole(0)));
        taken.into_iter().fold(sum, |left, right| op('-', left, right))
    }
}
