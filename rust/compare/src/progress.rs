//! A line on stderr: over itself on a terminal, else a new one now and then.

use std::io::{IsTerminal, Write, stderr};
use std::time::{Duration, Instant};

pub struct Progress {
    title: String,
    total: u64,
    from: Instant,
    last: Instant,
    on_terminal: bool,
}

impl Progress {
    pub fn new(title: &str, total: u64) -> Progress {
        let now = Instant::now();
        Progress {
            title: title.to_string(),
            total,
            from: now,
            last: now,
            on_terminal: stderr().is_terminal(),
        }
    }

    /// Says how far it is, if it is time to.
    pub fn at(&mut self, done: u64) {
        let pause = if self.on_terminal { 1 } else { 15 };
        if self.last.elapsed() < Duration::from_secs(pause) {
            return;
        }
        self.last = Instant::now();
        let Progress { title, total, .. } = self;
        let percent = done as f64 * 100.0 / (*total).max(1) as f64;
        let line = format!(
            "{title}: {done} of {total} ({percent:.0}%), {:.0} s",
            self.from.elapsed().as_secs_f64()
        );
        let (start, end) = if self.on_terminal {
            ("\r", "\x1b[K")
        } else {
            ("", "\n")
        };
        let _ = write!(stderr(), "{start}{line}{end}");
    }
}

impl Drop for Progress {
    fn drop(&mut self) {
        if self.on_terminal {
            let _ = write!(stderr(), "\r\x1b[K");
        }
    }
}
