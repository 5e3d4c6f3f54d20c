//! The numbers the bench answers with.

use std::error::Error;
use std::fmt;

/// What the library answers: a value, or why there is none. Number 0 is `Ok`.
pub type Answer<T = ()> = Result<T, Refusal>;

/// Document 01's numbers from 1 to 9, without 7: that was for a LUTI4 index
/// position at or past VL/4, which never comes, and it is not used again.
///
/// ```
/// use gighull::Refusal;
/// let refusal = Refusal::VectorClosed;
/// assert_eq!(refusal.number(), 4);
/// assert_eq!(refusal.to_string(), "4: the word needs V and V is closed");
/// assert_eq!(Refusal::from_number(7), None);
/// ```
#[derive(Clone, Copy, Debug, PartialEq, Eq, Hash, PartialOrd, Ord)]
pub enum Refusal {
    /// 1: VL or feature number not allowed
    Setting = 1,
    /// 2: a lent file of another length than the machine's
    FileLength = 2,
    /// 3: no layout, with its condition, matches
    Undefined = 3,
    /// 4: the word needs V and V is closed
    VectorClosed = 4,
    /// 5: the word needs S and S is closed
    StreamingClosed = 5,
    /// 6: the word needs T and T is closed
    TableClosed = 6,
    /// 8: a stretch of more than 256 words
    StretchLength = 8,
    /// 9: a field given for writing a word is outside its range
    Range = 9,
}

impl Refusal {
    pub const ALL: [Refusal; 8] = [
        Refusal::Setting,
        Refusal::FileLength,
        Refusal::Undefined,
        Refusal::VectorClosed,
        Refusal::StreamingClosed,
        Refusal::TableClosed,
        Refusal::StretchLength,
        Refusal::Range,
    ];

    pub const fn number(self) -> u32 {
        self as u32
    }

    /// None for 0, which is no refusal, for 7 and for numbers above 9.
    pub fn from_number(number: u32) -> Option<Refusal> {
        Refusal::ALL
            .into_iter()
            .find(|refusal| refusal.number() == number)
    }

    /// Document 01's words for it.
    pub const fn words(self) -> &'static str {
        match self {
            Refusal::Setting => "VL or feature number not allowed",
            Refusal::FileLength => "a lent file of another length than the machine's",
            Refusal::Undefined => "undefined: no layout, with its condition, matches",
            Refusal::VectorClosed => "the word needs V and V is closed",
            Refusal::StreamingClosed => "the word needs S and S is closed",
            Refusal::TableClosed => "the word needs T and T is closed",
            Refusal::StretchLength => "a stretch of more than 256 words",
            Refusal::Range => "a field given for writing a word is outside its range",
        }
    }

    /// The answer that a number of the library's is.
    pub(crate) fn answer(number: u32) -> Answer {
        if number == 0 {
            return Ok(());
        }
        Err(Refusal::from_number(number)
            .unwrap_or_else(|| panic!("the library answers {number}, which is no answer of it")))
    }
}

impl fmt::Display for Refusal {
    fn fmt(&self, out: &mut fmt::Formatter) -> fmt::Result {
        write!(out, "{}: {}", self.number(), self.words())
    }
}

impl Error for Refusal {}

/// A run that stopped before one of its words, or before any.
///
/// ```
/// use gighull::{Refusal, Stopped};
/// let stopped = Stopped { refusal: Refusal::Undefined, done: 2 };
/// assert_eq!(
///     stopped.to_string(),
///     "stopped after 2 words by 3: undefined: no layout, with its condition, matches"
/// );
/// ```
#[derive(Clone, Copy, Debug, PartialEq, Eq, Hash)]
pub struct Stopped {
    pub refusal: Refusal,
    /// How many words were done.
    pub done: usize,
}

impl fmt::Display for Stopped {
    fn fmt(&self, out: &mut fmt::Formatter) -> fmt::Result {
        let words = if self.done == 1 { "word" } else { "words" };
        write!(
            out,
            "stopped after {} {words} by {}",
            self.done, self.refusal
        )
    }
}

impl Error for Stopped {
    fn source(&self) -> Option<&(dyn Error + 'static)> {
        Some(&self.refusal)
    }
}
