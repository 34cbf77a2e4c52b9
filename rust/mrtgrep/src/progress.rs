//! How far a run is, for who watches it.

use std::time::{Duration, Instant};

/// A run that is over sooner shows nothing.
const FIRST: Duration = Duration::from_secs(1);

/// The time from one line to the next.
const PAUSE: Duration = Duration::from_millis(200);

/// Goes to the line's start and clears the line.
const CLEAR: &str = "\r\x1b[K";

const MEGABYTE: f64 = 1e6;

pub struct Progress {
    started: Instant,
    /// The bytes of all files, where they are known.
    total: Option<u64>,
    /// When the last line was shown.
    last: Option<Instant>,
    is_shown: bool,
}

impl Progress {
    pub fn new(total: Option<u64>) -> Progress {
        Progress {
            started: Instant::now(),
            total,
            last: None,
            is_shown: false,
        }
    }

    /// The next line, if it is time for one.
    pub fn next(&mut self, bytes: u64, kept: u64) -> Option<String> {
        let now = Instant::now();
        let elapsed = now - self.started;
        if elapsed < FIRST || self.last.is_some_and(|last| now - last < PAUSE) {
            return None;
        }
        self.last = Some(now);
        self.is_shown = true;
        Some(line(bytes, self.total, elapsed, kept))
    }

    /// What takes the line away, if one is shown.
    pub fn end(&mut self) -> Option<&'static str> {
        let was_shown = std::mem::take(&mut self.is_shown);
        was_shown.then_some(CLEAR)
    }
}

fn line(bytes: u64, total: Option<u64>, elapsed: Duration, kept: u64) -> String {
    let done = bytes as f64 / MEGABYTE;
    let of = total.map_or_else(String::new, |total| {
        format!(" of {:.1}", total as f64 / MEGABYTE)
    });
    let rate = done / elapsed.as_secs_f64();
    format!("{CLEAR}mrtgrep: {done:.1}{of} MB, {rate:.1} MB/s, kept {kept}")
}

#[cfg(test)]
mod tests {
    use super::*;

    #[test]
    fn a_line_has_the_bytes_the_rate_and_the_kept() {
        let two = Duration::from_secs(2);
        let said = line(1_500_000, Some(3_000_000), two, 7);
        assert_eq!(said, "\r\x1b[Kmrtgrep: 1.5 of 3.0 MB, 0.8 MB/s, kept 7");
        let said = line(1_500_000, None, two, 7);
        assert_eq!(said, "\r\x1b[Kmrtgrep: 1.5 MB, 0.8 MB/s, kept 7");
    }

    #[test]
    fn the_first_second_is_quiet() {
        let mut progress = Progress::new(None);
        assert_eq!(progress.next(1, 1), None);
        assert_eq!(progress.end(), None);
        progress.started -= FIRST;
        assert!(progress.next(1, 1).is_some());
        assert_eq!(progress.next(2, 2), None);
        assert_eq!(progress.end(), Some(CLEAR));
        assert_eq!(progress.end(), None);
    }
}
