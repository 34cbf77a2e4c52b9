//! What is said on standard error.

use std::fmt::Display;
use std::io::{stderr, Error, Write};

use crate::progress::Progress;

/// What each message begins with.
const COMMAND: &str = "mrtgrep";

/// Standard error, with the line of progress on it.
pub struct Messages {
    progress: Option<Progress>,
}

impl Messages {
    pub fn new(progress: Option<Progress>) -> Messages {
        Messages { progress }
    }

    /// Says something.
    pub fn say(&mut self, what: impl Display) {
        self.say_all([what]);
    }

    /// Says several things, in one write.
    pub fn say_all<T: Display>(&mut self, what: impl IntoIterator<Item = T>) {
        let text: String = what
            .into_iter()
            .map(|what| format!("{COMMAND}: {what}\n"))
            .collect();
        if text.is_empty() {
            return;
        }
        self.end_progress();
        put(&text);
    }

    /// Shows how far the run is, if it is time to.
    pub fn show_progress(&mut self, bytes: u64, kept: u64) {
        if let Some(text) = self
            .progress
            .as_mut()
            .and_then(|progress| progress.next(bytes, kept))
        {
            put(&text);
        }
    }

    /// Takes the line of progress away.
    pub fn end_progress(&mut self) {
        if let Some(text) = self.progress.as_mut().and_then(Progress::end) {
            put(text);
        }
    }
}

/// Writes to standard error. Where that fails there is no one left to tell.
pub fn put(text: &str) {
    let _ = stderr().write_all(text.as_bytes());
}

/// What went wrong, without the system's number for it.
pub fn words(error: &Error) -> String {
    let said = error.to_string();
    match said.split_once(" (os error") {
        Some((words, _)) => words.to_owned(),
        None => said,
    }
}
