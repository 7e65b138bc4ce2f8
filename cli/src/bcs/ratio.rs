//! Exact fractions. Whatever doesn't fit into 128 bits is nothing.

#[derive(Clone, Copy, Debug, PartialEq, Eq)]
pub struct Ratio {
    pub above: i128,
    /// Above zero, and without a divisor in common.
    pub below: i128,
}

pub const ONE: Ratio = Ratio { above: 1, below: 1 };

impl Ratio {
    pub fn new(above: i128, below: i128) -> Option<Ratio> {
        let common = divisor(above.checked_abs()?, below.checked_abs()?);
        if below == 0 || common == 0 {
            return None;
        }
        let sign = below.signum();
        Some(Ratio { above: sign * above / common, below: sign * below / common })
    }

    pub fn whole(number: i128) -> Ratio {
        Ratio { above: number, below: 1 }
    }

    /// A number as written, with or without a point.
    pub fn read(word: &str) -> Option<Ratio> {
        let (whole, part) = word.split_once('.').unwrap_or((word, ""));
        let below = 10i128.checked_pow(part.len() as u32)?;
        Ratio::new(format!("{whole}{part}").parse().ok()?, below)
    }

    pub fn plus(self, other: Ratio) -> Option<Ratio> {
        let left = self.above.checked_mul(other.below)?;
        let right = other.above.checked_mul(self.below)?;
        Ratio::new(left.checked_add(right)?, self.below.checked_mul(other.below)?)
    }

    pub fn times(self, other: Ratio) -> Option<Ratio> {
        Ratio::new(self.above.checked_mul(other.above)?, self.below.checked_mul(other.below)?)
    }

    pub fn over(self, other: Ratio) -> Option<Ratio> {
        Ratio::new(self.above.checked_mul(other.below)?, self.below.checked_mul(other.above)?)
    }

    /// The largest fraction of which both are whole multiples.
    pub fn common(self, other: Ratio) -> Option<Ratio> {
        let part = |above: i128, below: i128| above.checked_mul(below)?.checked_abs();
        let above = divisor(part(self.above, other.below)?, part(other.above, self.below)?);
        Ratio::new(above, self.below.checked_mul(other.below)?)
    }

    pub fn is_whole(self) -> bool {
        self.below == 1
    }

    /// How many decimals it has; nothing if it is no decimal.
    pub fn decimals(self) -> Option<u32> {
        (0..=30).find(|&digits| 10i128.pow(digits) % self.below == 0)
    }

    /// As a decimal, if it is one.
    pub fn written(self) -> Option<String> {
        let digits = self.decimals()?;
        let number = self.above.checked_mul(10i128.pow(digits) / self.below)?;
        let sign = if number < 0 { "-" } else { "" };
        Some(sign.to_string() + &crate::decimal::scaled(number.unsigned_abs(), digits as usize))
    }
}

fn divisor(mut left: i128, mut right: i128) -> i128 {
    while right != 0 {
        (left, right) = (right, left % right);
    }
    left
}

#[cfg(test)]
mod tests {
    use super::*;

    #[test]
    fn fractions() {
        let read = |word| Ratio::read(word).unwrap();
        assert_eq!(read("0.522"), Ratio::new(261, 500).unwrap());
        assert_eq!(read("1").common(read("0.001")), Some(read("0.001")));
        assert_eq!(read("0.75").common(read("0.5")), Some(read("0.25")));
        assert_eq!(read("1.50").written().unwrap(), "1.5");
        assert_eq!(Ratio::new(-1, 8).unwrap().written().unwrap(), "-0.125");
        assert_eq!(Ratio::new(1, 3).unwrap().written(), None);
        assert_eq!(Ratio::new(1, 0), None);
        assert_eq!(Ratio::whole(0).common(read("2")), Some(read("2")));
    }
}
