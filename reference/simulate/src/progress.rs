//! A progress line on standard error, for long runs.

use std::io::{self, IsTerminal, Write};
use std::time::{Duration, Instant};

use crate::tally::Tally;
use crate::trial::Stop;

/// The progress of a whole run.
pub struct Progress {
    started: Instant,
    /// When the line is next due.
    due: Instant,
    /// What is being done.
    stage: String,
    terminal: bool,
}

impl Progress {
    /// The progress of a run that starts now.
    pub fn start() -> Progress {
        let now = Instant::now();
        Progress {
            started: now,
            due: now + Duration::from_secs(1),
            stage: String::new(),
            terminal: io::stderr().is_terminal(),
        }
    }

    /// Names what is done from here on.
    pub fn stage(&mut self, stage: &str) {
        self.stage = stage.to_string();
    }

    /// Since the start.
    pub fn elapsed(&self) -> Duration {
        self.started.elapsed()
    }

    /// Shows how far a trial is: on a terminal twice a second on one line, else a line every ten
    /// seconds.
    pub fn show(&mut self, decibels: f64, frame: usize, stop: Stop, tallies: &[Tally]) {
        let now = Instant::now();
        if now < self.due {
            return;
        }
        let (wait, begin, end) = if self.terminal {
            (500, "\r\x1b[K", "")
        } else {
            (10_000, "", "\n")
        };
        self.due = now + Duration::from_millis(wait);
        let errors: Vec<String> = tallies
            .iter()
            .map(|tally| tally.frame_errors().to_string())
            .collect();
        eprint!(
            "{begin}{:4} s  {}, {decibels:.2} dB: frame {frame} of at most {}, frame errors {}{end}",
            self.elapsed().as_secs(),
            self.stage,
            stop.frames,
            errors.join(" "),
        );
        // A progress line that cannot be shown is no reason to stop.
        let _ = io::stderr().flush();
    }

    /// Clears the line.
    pub fn end(&self) {
        if self.terminal {
            eprint!("\r\x1b[K");
        }
    }
}
