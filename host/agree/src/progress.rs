//! How far a long run is, told on standard error.

use std::fs;
use std::time::{Duration, Instant};

/// How long it is silent between two lines.
const PAUSE: Duration = Duration::from_secs(3);

/// Tells how far a run is, if anyone is to be told.
pub struct Progress {
    shown: bool,
    calls: u64,
    began: Instant,
    last: Instant,
}

impl Progress {
    /// Of a run of so many calls. It is shown where that is wanted, or where standard error is a terminal.
    pub fn shown_if(wanted: bool, calls: u64) -> Progress {
        let now = Instant::now();
        Progress {
            shown: wanted || error_is_terminal(),
            calls,
            began: now,
            last: now,
        }
    }

    /// So many calls were answered; the last ones are of this subject.
    pub fn tell(&mut self, subject: &str, answered: u64) {
        if !self.shown || self.last.elapsed() < PAUSE {
            return;
        }
        self.last = Instant::now();
        let line = line(subject, answered, self.calls, self.began.elapsed());
        eprintln!("{line}");
    }
}

fn line(subject: &str, answered: u64, calls: u64, since: Duration) -> String {
    let since = since.as_secs_f64();
    let left = since * calls.saturating_sub(answered) as f64 / answered.max(1) as f64;
    format!("agree: {subject}: {answered} of {calls} calls, {since:.0} s, about {left:.0} s left")
}

/// Whether standard error is a terminal, by the name that the system has for what it leads to.
fn error_is_terminal() -> bool {
    let leads_to = fs::read_link("/proc/self/fd/2");
    leads_to.map_or(false, |path| {
        path.starts_with("/dev/pts") || path.to_string_lossy().starts_with("/dev/tty")
    })
}

#[cfg(test)]
mod tests {
    use super::*;

    #[test]
    fn a_line_tells_how_far_it_is_and_how_long_it_takes() {
        assert_eq!(
            line("view", 2_000, 6_000, Duration::from_secs(10)),
            "agree: view: 2000 of 6000 calls, 10 s, about 20 s left"
        );
        assert!(line("view", 0, 6_000, Duration::ZERO).ends_with("about 0 s left"));
    }
}
