//! How far the runs are, with the time left, on standard error where that is a terminal.

use std::io::{self, IsTerminal, Write};
use std::time::{Duration, Instant};

const PAUSE: Duration = Duration::from_millis(200);

pub struct Progress {
    all: u64,
    began: Instant,
    shown: Option<Instant>,
    is_shown: bool,
}

impl Progress {
    pub fn new(all: u64) -> Progress {
        Progress { all, began: Instant::now(), shown: None, is_shown: io::stderr().is_terminal() }
    }

    pub fn done(&mut self, done: u64) {
        let recent = self.shown.is_some_and(|shown| shown.elapsed() < PAUSE);
        if !self.is_shown || (recent && done < self.all) {
            return;
        }
        self.shown = Some(Instant::now());
        let left = self.began.elapsed().as_secs_f64() * (self.all - done) as f64 / done.max(1) as f64;
        // Progress that can't be shown is no reason to end.
        let _ = write!(io::stderr(), "\r{done} of {} runs, {left:.0} s left \x1b[K", self.all);
    }
}

impl Drop for Progress {
    fn drop(&mut self) {
        if self.is_shown {
            let _ = write!(io::stderr(), "\r\x1b[K");
        }
    }
}
