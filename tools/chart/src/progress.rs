//! A line on the terminal while something takes long.

use std::io::{self, IsTerminal, Write};
use std::time::{Duration, Instant};

/// Nothing is said before this.
const PATIENCE: Duration = Duration::from_millis(700);
const BETWEEN: Duration = Duration::from_millis(200);

/// A progress line on standard error, where that is a terminal. It is wiped out when it is dropped.
pub struct Progress {
    what: String,
    next: Option<Instant>,
    shown: bool,
}

impl Progress {
    /// Of reading: standard output is not written meanwhile.
    pub fn of(what: String) -> Progress {
        let next = io::stderr().is_terminal().then(|| Instant::now() + PATIENCE);
        Progress { what, next, shown: false }
    }

    /// Of writing to standard output: none where that is a terminal too.
    pub fn of_output(what: &str) -> Progress {
        if io::stdout().is_terminal() {
            return Progress::none();
        }
        Progress::of(what.to_string())
    }

    /// No line at all.
    pub fn none() -> Progress {
        Progress { what: String::new(), next: None, shown: false }
    }

    /// So much of it is done.
    pub fn at(&mut self, done: u64, whole: u64) {
        if self.next.is_none_or(|next| Instant::now() < next) {
            return;
        }
        let share = (100 * u128::from(done)).checked_div(whole.into()).unwrap_or(0);
        // a line that cannot be written is no failure
        let _ = write!(io::stderr(), "\r\x1b[K{}: {share} %", self.what);
        self.next = Some(Instant::now() + BETWEEN);
        self.shown = true;
    }
}

impl Drop for Progress {
    fn drop(&mut self) {
        if self.shown {
            let _ = write!(io::stderr(), "\r\x1b[K");
        }
    }
}
