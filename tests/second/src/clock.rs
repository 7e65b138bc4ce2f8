//! Model time (02, note 4): von Neumann's waiting draws, and the clock.

/// The most that a number of the clock can be.
pub const MOST: u64 = 9_223_372_036_854_775_807;
/// How many values a waiting draw can have.
const DRAWS: u64 = 65_536;
/// So many runs of even length end the draws.
const EVEN_RUNS: u64 = 32;

/// Ticks, in ten-thousandths of a model unit, and the count of waiting draws used.
#[derive(Clone, Copy, Debug, Default, PartialEq, Eq)]
pub struct Clock {
    pub ticks: u64,
    pub draws: u64,
}

impl Clock {
    /// Question 11 of a clock.
    pub fn is_in_range(&self) -> bool {
        self.ticks <= MOST && self.draws <= MOST
    }

    /// The clock after a wait at this total, or `None`: a number would pass its range (25).
    pub fn after(&self, wait: &Wait, total: u64) -> Option<Clock> {
        let time = u128::from(wait.length) * 1_000_000_000_000 / (u128::from(DRAWS) * u128::from(total));
        let ticks = u64::try_from(u128::from(self.ticks) + time).ok()?;
        let clock = Clock { ticks, draws: self.draws.checked_add(wait.used)? };
        clock.is_in_range().then_some(clock)
    }
}

/// What waiting draws give.
#[derive(Clone, Copy, Debug, PartialEq, Eq)]
pub struct Wait {
    /// E.
    pub length: u64,
    /// How many draws were used.
    pub used: u64,
}

/// Takes runs of falling draws until one has odd length. `Err` is the number of the refusal: 23 if the draws end first,
/// 24 if too many runs are of even length.
pub fn wait(draws: &[u16]) -> Result<Wait, u64> {
    let mut used = 0;
    for even in 0..EVEN_RUNS {
        let run = run_length(&draws[used..]).ok_or(23u64)?;
        let first = draws[used];
        // The draw that ends a run is used up.
        used += run + 1;
        if run % 2 == 1 {
            return Ok(Wait { length: even * DRAWS + u64::from(first), used: used as u64 });
        }
    }
    Err(24)
}

/// How many draws fall from the first on. `None`: they end before one that doesn't fall.
fn run_length(draws: &[u16]) -> Option<usize> {
    let place = draws.windows(2).position(|two| two[1] >= two[0])?;
    Some(place + 1)
}
