//! What is wrong with some input, on one line with its place.

use std::fmt;
use std::path::Path;

/// What a command ends with.
#[derive(Clone, Copy, Debug, PartialEq, Eq)]
#[repr(u8)]
pub enum Status {
    Done = 0,
    /// The input is wrong: one line says where, and nothing was written.
    Wrong = 1,
    /// The bench answered another number than 0.
    Refused = 2,
}

#[derive(Clone, Debug, PartialEq, Eq)]
pub struct Failure {
    pub place: String,
    pub message: String,
    pub status: Status,
}

impl Failure {
    pub fn new(place: impl Into<String>, message: impl Into<String>) -> Failure {
        Failure {
            place: place.into(),
            message: message.into(),
            status: Status::Wrong,
        }
    }

    /// A file that could not be read or written.
    pub fn of_file(path: &Path, error: &std::io::Error) -> Failure {
        Failure::new(name_of(path), error.to_string())
    }

    /// The bench's own answer to a question that has no other.
    pub fn refused(place: impl Into<String>, message: impl Into<String>) -> Failure {
        let status = Status::Refused;
        Failure {
            status,
            ..Failure::new(place, message)
        }
    }
}

impl fmt::Display for Failure {
    fn fmt(&self, out: &mut fmt::Formatter) -> fmt::Result {
        write!(out, "{}: {}", self.place, self.message)
    }
}

/// A path as one line of text, whatever bytes it has.
pub fn name_of(path: &Path) -> String {
    printable(&path.to_string_lossy())
}

/// Some of the input between quotes: short, and on one line.
pub fn quoted(text: &str) -> String {
    const LONGEST: usize = 24;
    let mut start: String = text.chars().take(LONGEST).collect();
    if start.len() < text.len() {
        start.push('…');
    }
    format!("'{}'", printable(&start))
}

fn printable(text: &str) -> String {
    let mut line = String::new();
    for letter in text.chars() {
        if letter.is_control() || letter == char::REPLACEMENT_CHARACTER {
            line.extend(letter.escape_default());
        } else {
            line.push(letter);
        }
    }
    line
}

#[cfg(test)]
mod tests {
    use super::*;

    #[test]
    fn quotes_are_short_and_on_one_line() {
        assert_eq!(quoted("z3.h"), "'z3.h'");
        assert_eq!(quoted("a\nb\u{1b}"), "'a\\nb\\u{1b}'");
        assert_eq!(quoted(&"x".repeat(99)), format!("'{}…'", "x".repeat(24)));
        assert_eq!(quoted("ééééééééééééééééééééééééé").chars().count(), 27);
    }
}
