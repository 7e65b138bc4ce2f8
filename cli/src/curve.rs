//! When each value of a channel was first lit, over many runs: the timing curve and its table.

use crate::csv;
use crate::decimal;
use crate::failure::Failure;
use crate::model::joined;
use std::collections::BTreeMap;
use std::io::Write;

/// Points of a grid that is chosen by itself, and of one that is asked for, at most.
const POINTS: u64 = 20;
const MOST_POINTS: u64 = 1_000;
/// Digits of means and shares.
const DIGITS: usize = 6;
const HEAD: [&str; 8] = ["value", "runs", "lit", "mean", "sd", "q1", "median", "q3"];

/// The first times of one run: the values of a pair, and the ticks at which it was lit.
pub type Times = Vec<(Vec<i64>, u64)>;

#[derive(Default)]
pub struct Curve {
    runs: u64,
    times: BTreeMap<Vec<i64>, Vec<u64>>,
}

impl Curve {
    pub fn add_run(&mut self, times: Times) {
        self.runs += 1;
        for (values, ticks) in times {
            self.times.entry(values).or_default().push(ticks);
        }
    }

    /// A row for each value: how many runs lit it, the statistics of those, and the share of all runs by each time of
    /// the grid.
    pub fn print(mut self, step: Option<u64>, out: &mut dyn Write) -> Result<(), Failure> {
        let grid = self.grid(step)?;
        let mut head: Vec<String> = HEAD.iter().map(|name| name.to_string()).collect();
        head.extend(grid.iter().map(|&ticks| format!("by_{}", decimal::time(ticks))));
        out.write_all(csv::line(&head).as_bytes())?;
        for (values, times) in &mut self.times {
            times.sort_unstable();
            let mut row = vec![joined(values, " "), self.runs.to_string(), times.len().to_string()];
            row.extend([mean(times), deviation(times), quartile(times, 1), quartile(times, 2), quartile(times, 3)]);
            let by = |ticks: u64| times.partition_point(|&time| time <= ticks) as u128;
            row.extend(grid.iter().map(|&ticks| decimal::quotient(by(ticks), self.runs.into(), DIGITS)));
            out.write_all(csv::line(&row).as_bytes())?;
        }
        Ok(())
    }

    /// Times a step apart, from one step up to the first by which all is lit.
    fn grid(&self, step: Option<u64>) -> Result<Vec<u64>, Failure> {
        let last = self.times.values().flatten().copied().max().unwrap_or(0);
        let round = (0..).flat_map(|power| [1, 2, 5].map(|digit| digit * 10u64.saturating_pow(power)));
        let chosen = || round.into_iter().find(|step| last.div_ceil(*step) <= POINTS).unwrap_or(u64::MAX);
        let step = step.unwrap_or_else(chosen).max(1);
        if last.div_ceil(step) > MOST_POINTS {
            let words = format!(
                "a grid of {} has more than {MOST_POINTS} times up to {}",
                decimal::time(step),
                decimal::time(last)
            );
            return Err(Failure::Usage(words));
        }
        Ok((1..=last.div_ceil(step)).map(|point| point * step).collect())
    }
}

fn sum(times: &[u64]) -> u128 {
    times.iter().map(|&time| u128::from(time)).sum()
}

/// Ticks over a divisor, in units of time.
fn units(ticks: u128, divisor: u128) -> String {
    decimal::quotient(ticks, divisor * u128::from(decimal::UNIT), DIGITS)
}

fn mean(times: &[u64]) -> String {
    units(sum(times), times.len() as u128)
}

/// The deviation of a sample; none of a single run.
fn deviation(times: &[u64]) -> String {
    if times.len() < 2 {
        return String::new();
    }
    let count = times.len() as f64;
    let mean = sum(times) as f64 / count;
    let squares: f64 = times.iter().map(|&time| (time as f64 - mean).powi(2)).sum();
    format!("{:.DIGITS$}", (squares / (count - 1.0)).sqrt() / decimal::UNIT as f64)
}

/// The quartile of ascending times, between two of them in proportion.
fn quartile(times: &[u64], number: usize) -> String {
    let quarters = (times.len() - 1) * number;
    let (at, part) = (quarters / 4, (quarters % 4) as u128);
    let after = times[(at + 1).min(times.len() - 1)];
    units(u128::from(times[at]) * (4 - part) + u128::from(after) * part, 4)
}

#[cfg(test)]
mod tests {
    use super::*;

    fn table(runs: &[&[u64]], step: Option<u64>) -> String {
        let mut curve = Curve::default();
        for run in runs {
            curve.add_run(run.iter().zip(1..).map(|(&ticks, value)| (vec![value], ticks)).collect());
        }
        let mut out = Vec::new();
        assert!(curve.print(step, &mut out).is_ok());
        String::from_utf8(out).unwrap()
    }

    #[test]
    fn statistics_of_a_sample() {
        let runs: [&[u64]; 4] = [&[10_000], &[40_000], &[20_000], &[30_000, 5]];
        let expected = "value,runs,lit,mean,sd,q1,median,q3,by_2,by_4\n\
                        1,4,4,2.5,1.290994,1.75,2.5,3.25,0.5,1\n\
                        2,4,1,0.0005,,0.0005,0.0005,0.0005,0.25,0.25\n";
        assert_eq!(table(&runs, Some(20_000)), expected);
    }

    #[test]
    fn a_grid_of_its_own() {
        let heads = |last| table(&[&[last]], None).lines().next().unwrap().matches("by_").count();
        assert_eq!((heads(20), heads(21), heads(1_234_567), heads(0)), (20, 11, 13, 0));
        assert_eq!(table(&[], None), "value,runs,lit,mean,sd,q1,median,q3\n");
        assert_eq!(table(&[&[u64::MAX >> 1]], None).lines().count(), 2);
    }
}
