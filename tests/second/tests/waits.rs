//! Ten million waits by draws of a fixed seed, against the exponential law: mean, variance and tail lie within three
//! standard errors (02, note 4).

use second::clock::wait;
use second::generate::Random;

const WAITS: usize = 10_000_000;
const SEED: u64 = 4;
/// One mean wait.
const UNIT: f64 = 65_536.0;
/// Tails at so many mean waits.
const TAILS: [f64; 7] = [0.1, 0.5, 1.0, 2.0, 3.0, 5.0, 8.0];

/// Draws without end, some kept ready.
struct Draws {
    random: Random,
    ready: Vec<u16>,
    next: usize,
}

/// More than a wait ever uses here.
const READY: usize = 4_096;

impl Draws {
    /// The next wait in mean waits, and how many draws it used.
    fn wait(&mut self) -> (f64, u64) {
        if self.ready.len() - self.next < READY {
            self.ready.drain(..self.next);
            self.next = 0;
            while self.ready.len() < 16 * READY {
                let number = self.random.number();
                self.ready.extend((0..4).map(|part| (number >> (16 * part)) as u16));
            }
        }
        let wait = wait(&self.ready[self.next..self.next + READY]).expect("enough draws");
        self.next += wait.used as usize;
        (wait.length as f64 / UNIT, wait.used)
    }
}

fn within(what: &str, found: f64, expected: f64, error: f64) {
    let errors = (found - expected) / error;
    println!("{what}: {found:.6}, expected {expected:.6}, {errors:+.2} standard errors");
    assert!(errors.abs() <= 3.0, "{what}: {errors:+.2} standard errors");
}

#[test]
fn ten_million_waits_follow_the_exponential_law() {
    let mut draws = Draws { random: Random::new(SEED), ready: Vec::new(), next: 0 };
    let (mut sum, mut squares, mut used) = (0.0, 0.0, 0);
    let mut beyond = [0u64; TAILS.len()];
    for _ in 0..WAITS {
        let (wait, taken) = draws.wait();
        // About the mean, so that little is lost.
        sum += wait - 1.0;
        squares += (wait - 1.0) * (wait - 1.0);
        used += taken;
        for (tail, count) in TAILS.iter().zip(&mut beyond) {
            *count += u64::from(wait >= *tail);
        }
    }
    let count = WAITS as f64;
    let mean = sum / count;
    // The fourth central moment of the law is 9.
    within("mean", mean + 1.0, 1.0, (1.0 / count).sqrt());
    within("variance", squares / count - mean * mean, 1.0, (8.0 / count).sqrt());
    for (tail, beyond) in TAILS.iter().zip(beyond) {
        let part = (-tail).exp();
        within(&format!("beyond {tail}"), beyond as f64 / count, part, (part * (1.0 - part) / count).sqrt());
    }
    // A run uses e draws in the mean, its end included, and e / (e - 1) runs make a wait.
    let e = std::f64::consts::E;
    assert!((used as f64 / count - e * e / (e - 1.0)).abs() < 0.01, "{used}");
}
