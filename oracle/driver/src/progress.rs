//! Shows on standard error, now and then, how far a long run has come.

use std::time::{Duration, Instant};

const PAUSE: Duration = Duration::from_secs(5);

pub struct Progress {
    program: &'static str,
    shown: Instant,
}

impl Progress {
    pub fn new(program: &'static str) -> Progress {
        Progress {
            program,
            shown: Instant::now(),
        }
    }

    /// Says how far the run is, if nothing was said for a while.
    pub fn say(&mut self, what: impl FnOnce() -> String) {
        if self.shown.elapsed() >= PAUSE {
            eprintln!("{}: {}", self.program, what());
            self.shown = Instant::now();
        }
    }
}
