//! Expressions as a fraction times a whole expression, so that decimals become whole numbers.

use super::ratio::{Ratio, ONE};
use super::tree::Expr;

/// The largest exponent that is written out as a product, and the names and numbers of the longest product.
const MOST_FACTORS: i128 = 8;
const MOST_PARTS: usize = 1_000;

/// An expression of whole numbers, as our texts have them.
#[derive(Clone)]
pub enum Whole {
    Number(i128),
    Name(String),
    Op(char, Box<Whole>, Box<Whole>),
    Fun(String, Vec<Whole>),
}

/// A fraction times a whole expression, or alone.
#[derive(Clone)]
pub struct Form {
    pub scale: Ratio,
    pub whole: Option<Whole>,
}

/// Locals, and how many decimals their whole numbers stand for.
pub type Locals = [(String, u32)];

/// What names stand for, and how much is worked out.
pub struct Scope<'a> {
    pub variables: &'a [(String, Ratio)],
    pub locals: Vec<(String, u32)>,
    /// Are whole variables worked out too?
    pub folds: bool,
    /// Is `/` a division of whole numbers, where neither side is scaled?
    pub divides: bool,
}

type Formed = Result<Form, String>;

fn too_large() -> String {
    "the numbers are too large".to_string()
}

fn constant(scale: Ratio) -> Form {
    Form { scale, whole: None }
}

impl Form {
    /// How often the fraction goes into the form, as a whole expression; nothing if that isn't whole.
    pub fn part(&self, of: Ratio) -> Option<Whole> {
        let count = self.scale.over(of).filter(|count| count.is_whole())?.above;
        Some(match &self.whole {
            None => Whole::Number(count),
            Some(whole) if count == 1 => whole.clone(),
            Some(whole) => Whole::Op('*', Box::new(Whole::Number(count)), Box::new(whole.clone())),
        })
    }

    fn is_zero(&self) -> bool {
        self.scale.above == 0
    }
}

impl Scope<'_> {
    pub fn form(&self, expr: &Expr) -> Formed {
        match expr {
            Expr::Number(number) => Ok(constant(*number)),
            Expr::Name(name) => self.name(name),
            Expr::Op(sign, left, right) => self.operation(*sign, left, right),
            Expr::Fun(name, arguments) => self.function(name, arguments),
        }
    }

    fn name(&self, name: &str) -> Formed {
        if let Some((_, decimals)) = self.locals.iter().rev().find(|(local, _)| local == name) {
            let scale = Ratio::new(1, 10i128.pow(*decimals)).ok_or_else(too_large)?;
            return Ok(Form { scale, whole: Some(Whole::Name(name.to_string())) });
        }
        match self.variables.iter().find(|(variable, _)| variable == name) {
            None => Err(format!("{name} is neither a parameter nor a variable")),
            Some((_, number)) if number.is_whole() && !self.folds => {
                Ok(Form { scale: ONE, whole: Some(Whole::Name(name.to_string())) })
            }
            Some((_, number)) => Ok(constant(*number)),
        }
    }

    fn operation(&self, sign: char, left: &Expr, right: &Expr) -> Formed {
        match sign {
            '+' | '-' => self.sum(sign, self.form(left)?, self.form(right)?),
            '*' => product(self.form(left)?, self.form(right)?),
            '/' => self.quotient(left, right),
            _ => self.power(left, right),
        }
    }

    fn sum(&self, sign: char, left: Form, right: Form) -> Formed {
        if left.whole.is_none() && right.whole.is_none() {
            let signed = if sign == '-' { Ratio { above: -right.scale.above, ..right.scale } } else { right.scale };
            return left.scale.plus(signed).map(constant).ok_or_else(too_large);
        }
        if right.is_zero() {
            return Ok(left);
        }
        let (scale, parts) = together(vec![left, right])?;
        let [left, right] = <[Whole; 2]>::try_from(parts).map_err(|_| too_large())?;
        Ok(Form { scale, whole: Some(Whole::Op(sign, Box::new(left), Box::new(right))) })
    }

    /// By a constant, or of whole numbers where that is what `/` is.
    fn quotient(&self, left: &Expr, right: &Expr) -> Formed {
        let above = self.form(left)?;
        if self.divides {
            let both = (above.part(ONE), self.form(right)?.part(ONE));
            if let (Some(left), Some(right)) = both {
                return Ok(Form { scale: ONE, whole: Some(Whole::Op('/', Box::new(left), Box::new(right))) });
            }
        }
        let below = self.constant(right).ok_or("a division by what isn't constant has no whole numbers")?;
        let scale = above.scale.over(below).ok_or("a division by zero")?;
        Ok(Form { scale, ..above })
    }

    /// The number of an expression without locals.
    fn constant(&self, expr: &Expr) -> Option<Ratio> {
        let scope = Scope { variables: self.variables, locals: self.locals.clone(), folds: true, divides: false };
        let form = scope.form(expr).ok()?;
        form.whole.is_none().then_some(form.scale)
    }

    fn power(&self, base: &Expr, exponent: &Expr) -> Formed {
        let exponent = self.constant(exponent).filter(|exponent| exponent.is_whole());
        let count = exponent.map(|exponent| exponent.above).filter(|count| (0..=MOST_FACTORS).contains(count));
        let count = count.ok_or("`^` can be said for whole exponents from 0 to 8 alone")?;
        let base = self.form(base)?;
        if base.whole.as_ref().map_or(0, Whole::parts) * count as usize > MOST_PARTS {
            return Err("`^` is too long as a product".to_string());
        }
        (0..count).try_fold(constant(ONE), |left, _| product(left, base.clone()))
    }

    fn function(&self, name: &str, arguments: &[Expr]) -> Formed {
        let count = match name {
            "abs" => 1,
            "max" | "min" => 2,
            _ => return Err(format!("{name} can't be said")),
        };
        if arguments.len() != count {
            return Err(format!("{name} takes {count} values"));
        }
        let forms = arguments.iter().map(|argument| self.form(argument)).collect::<Result<Vec<_>, _>>()?;
        if let Some(number) = worked_out(name, &forms) {
            return Ok(constant(number));
        }
        let (scale, parts) = together(forms)?;
        Ok(Form { scale, whole: Some(Whole::Fun(name.to_string(), parts)) })
    }
}

/// What a function of constants is.
fn worked_out(name: &str, forms: &[Form]) -> Option<Ratio> {
    if forms.iter().any(|form| form.whole.is_some()) {
        return None;
    }
    let [first, last] = [forms.first()?.scale, forms.last()?.scale];
    let difference = last.plus(Ratio { above: first.above.checked_neg()?, ..first })?;
    Some(match name {
        "abs" => Ratio { above: first.above.checked_abs()?, ..first },
        "max" if difference.above > 0 => last,
        "min" if difference.above < 0 => last,
        _ => first,
    })
}

fn product(left: Form, right: Form) -> Formed {
    let scale = left.scale.times(right.scale).ok_or_else(too_large)?;
    let whole = match (left.whole, right.whole) {
        (Some(left), Some(right)) => Some(Whole::Op('*', Box::new(left), Box::new(right))),
        (left, right) => left.or(right),
    };
    Ok(Form { scale, whole })
}

/// The largest fraction that goes into all forms, and how often it goes into each.
pub fn together(forms: Vec<Form>) -> Result<(Ratio, Vec<Whole>), String> {
    let common = forms.iter().try_fold(Ratio::whole(0), |common, form| common.common(form.scale));
    let common = common.filter(|common| common.above != 0).unwrap_or(ONE);
    let parts: Option<Vec<Whole>> = forms.iter().map(|form| form.part(common)).collect();
    parts.map(|parts| (common, parts)).ok_or_else(too_large)
}

impl Whole {
    /// How many names and numbers it has.
    fn parts(&self) -> usize {
        match self {
            Whole::Number(_) | Whole::Name(_) => 1,
            Whole::Op(_, left, right) => left.parts() + right.parts(),
            Whole::Fun(_, parts) => parts.iter().map(Whole::parts).sum(),
        }
    }

    /// As our texts write it; `strength` is that of the sign around it.
    pub fn written(&self, strength: u8) -> String {
        match self {
            Whole::Number(number) => number.to_string(),
            Whole::Name(name) => name.clone(),
            Whole::Fun(name, parts) => {
                let parts: Vec<String> = parts.iter().map(|part| part.written(0)).collect();
                format!("{name}({})", parts.join(","))
            }
            Whole::Op(sign, left, right) => {
                let own = if "+-".contains(*sign) { 1 } else { 2 };
                let words = format!("{}{sign}{}", left.written(own), right.written(own + 1));
                if own < strength {
                    format!("({words})")
                } else {
                    words
                }
            }
        }
    }
}
