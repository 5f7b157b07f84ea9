//! How far a long input is, on standard error, where that is a terminal.

use std::io::{self, IsTerminal, Write};
use std::time::{Duration, Instant};

use picture::text::counted;

/// Nothing is told before this, and nothing more often.
const EVERY: Duration = Duration::from_millis(250);
/// The clock is looked at once in so many rounds or lines.
const LOOK: u64 = 256;

/// A line that is written over and over again.
pub struct Progress {
    unit: &'static str,
    whole: Option<u64>,
    last: Option<Instant>,
    shown: bool,
}

impl Progress {
    /// For an input that counts in these units, of so many bytes if that is
    /// known.
    pub fn new(unit: &'static str, whole: Option<u64>) -> Progress {
        let last = io::stderr().is_terminal().then(Instant::now);
        Progress { unit, whole, last, shown: false }
    }

    /// So much has been read.
    pub fn at(&mut self, count: u64, bytes: u64) {
        let Some(last) = self.last.filter(|_| count % LOOK == 0) else { return };
        if last.elapsed() >= EVERY {
            self.last = Some(Instant::now());
            self.shown = true;
            let _ = write!(io::stderr(), "\rpicture: {}\u{1b}[K", words(self.unit, count, bytes, self.whole));
        }
    }
}

impl Drop for Progress {
    fn drop(&mut self) {
        if self.shown {
            let _ = write!(io::stderr(), "\r\u{1b}[K");
        }
    }
}

fn words(unit: &str, count: u64, bytes: u64, whole: Option<u64>) -> String {
    let share = match whole {
        Some(whole) if whole > 0 => format!(", {} %", u128::from(bytes) * 100 / u128::from(whole)),
        _ => String::new(),
    };
    format!("{} {unit}{share}", counted(count))
}

#[cfg(test)]
mod tests {
    use super::words;

    #[test]
    fn a_share_is_told_where_the_whole_is_known() {
        assert_eq!(words("rounds", 12_800, 50, Some(200)), "12,800 rounds, 25 %");
        assert_eq!(words("lines", 256, 50, None), "256 lines");
    }
}
