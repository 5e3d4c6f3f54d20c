//! The numbers the bench answers with.

/// Number 0: done.
pub const DONE: u32 = 0;

#[derive(Clone, Copy, Debug, PartialEq, Eq)]
pub enum Refusal {
    /// 1: vector length or feature number not allowed.
    Setting,
    /// 2: a lent file of another length than the machine's.
    FileLength,
    /// 3: no layout, with its condition, matches.
    Undefined,
    /// 4: the word needs V and V is closed.
    VectorClosed,
    /// 5: the word needs S and S is closed.
    StreamingClosed,
    /// 6: the word needs T and T is closed.
    TableClosed,
    /// 8: a stretch of more than 256 words.
    StretchLength,
    /// 9: a field given for writing is outside its range.
    Range,
}

impl Refusal {
    pub fn number(self) -> u32 {
        match self {
            Refusal::Setting => 1,
            Refusal::FileLength => 2,
            Refusal::Undefined => 3,
            Refusal::VectorClosed => 4,
            Refusal::StreamingClosed => 5,
            Refusal::TableClosed => 6,
            // No 7: it never comes and is not used again (document 02, request 3).
            Refusal::StretchLength => 8,
            Refusal::Range => 9,
        }
    }
}

/// The number of an answer: 0, or that of its refusal.
pub fn number_of<T>(answer: &Result<T, Refusal>) -> u32 {
    match answer {
        Ok(_) => DONE,
        Err(refusal) => refusal.number(),
    }
}
