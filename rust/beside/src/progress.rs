//! How far a run has come, shown on a terminal while it runs and nowhere else.
use std::io::{IsTerminal, Write, stderr};
use std::sync::Mutex;
use std::time::{Duration, Instant};

const EVERY: Duration = Duration::from_millis(200);

pub struct Progress {
    name: &'static str,
    total: usize,
    shown: bool,
    state: Mutex<(usize, Instant)>,
}

impl Progress {
    pub fn new(name: &'static str, total: usize) -> Self {
        Self {
            name,
            total,
            shown: stderr().is_terminal(),
            state: Mutex::new((0, Instant::now())),
        }
    }

    pub fn add(&self, done: usize) {
        let mut state = self.state.lock().expect("no thread panicked");
        state.0 += done;
        if self.shown && state.1.elapsed() >= EVERY {
            state.1 = Instant::now();
            eprint!("\r{:15} {} of {}", self.name, state.0, self.total);
            let _ = stderr().flush();
        }
    }

    pub fn clear(&self) {
        if self.shown {
            eprint!("\r\x1b[K");
        }
    }
}
