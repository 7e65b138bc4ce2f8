//! Whole numbers printed and read as decimals, without rounding on the way.

/// Ticks of a unit of the model's time.
pub const UNIT: u64 = 10_000;
const TICK_DIGITS: usize = 4;

/// A weight counts hundred-millionths of a rate.
const WEIGHT_DIGITS: usize = 8;

/// A number of `10^-digits` as a decimal, without zeros at its end.
pub fn scaled(number: u128, digits: usize) -> String {
    let all = format!("{number:0>width$}", width = digits + 1);
    let (whole, part) = all.split_at(all.len() - digits);
    let part = part.trim_end_matches('0');
    if part.is_empty() {
        whole.to_string()
    } else {
        format!("{whole}.{part}")
    }
}

pub fn time(ticks: u64) -> String {
    scaled(ticks.into(), TICK_DIGITS)
}

pub fn rate(weight: u64) -> String {
    scaled(weight.into(), WEIGHT_DIGITS)
}

/// A quotient rounded to so many digits, halves up.
pub fn quotient(number: u128, divisor: u128, digits: usize) -> String {
    let scale = 10u128.pow(digits as u32);
    scaled((2 * number * scale + divisor) / (2 * divisor), digits)
}

/// The ticks of a time with at most four decimals.
pub fn ticks(word: &str) -> Option<u64> {
    let (whole, part) = word.split_once('.').unwrap_or((word, ""));
    let digits = |word: &str| word.bytes().all(|byte| byte.is_ascii_digit());
    if whole.is_empty() || !digits(whole) || !digits(part) || part.len() > TICK_DIGITS {
        return None;
    }
    format!("{whole}{part:0<TICK_DIGITS$}").parse().ok()
}

#[cfg(test)]
mod tests {
    use super::*;

    #[test]
    fn decimals() {
        assert_eq!(time(0), "0");
        assert_eq!(time(15_000), "1.5");
        assert_eq!(time(100_010_681), "10001.0681");
        assert_eq!(rate(25_000_000), "0.25");
        assert_eq!(quotient(2, 3, 4), "0.6667");
        assert_eq!(quotient(1, 2, 0), "1");
        assert_eq!(ticks("1.5"), Some(15_000));
        assert_eq!(ticks("0.0001"), Some(1));
        for wrong in ["", ".", ".5", "1.00001", "-1", "1e3", "x", "99999999999999999999"] {
            assert_eq!(ticks(wrong), None, "{wrong}");
        }
    }
}
