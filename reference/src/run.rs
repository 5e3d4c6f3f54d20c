//! A stretch of words executed one after the other.

use crate::machine::Machine;
use crate::refusal::{DONE, Refusal};
use crate::setting::Setting;
use crate::step::step;

/// The most words a stretch may have.
pub const LONGEST_STRETCH: usize = 256;

#[derive(Clone, Copy, Debug, PartialEq, Eq)]
pub struct Outcome {
    /// What refused the run, or the first word that was not done.
    pub refusal: Option<Refusal>,
    /// How many words were done.
    pub done: usize,
}

impl Outcome {
    pub fn number(self) -> u32 {
        self.refusal.map_or(DONE, Refusal::number)
    }
}

/// Refuses with 1, 2, 8 before any word, also for no words at all. The
/// machine is left as the words that were done left it.
pub fn run(setting: Setting, words: &[u32], machine: &mut Machine) -> Outcome {
    let refused = |refusal| Outcome {
        refusal: Some(refusal),
        done: 0,
    };
    if !setting.is_allowed() {
        return refused(Refusal::Setting);
    }
    if !machine.has_right_lengths() {
        return refused(Refusal::FileLength);
    }
    if words.len() > LONGEST_STRETCH {
        return refused(Refusal::StretchLength);
    }
    let mut done = 0;
    for &word in words {
        if let Err(refusal) = step(setting, word, machine) {
            let refusal = Some(refusal);
            return Outcome { refusal, done };
        }
        done += 1;
    }
    Outcome {
        refusal: None,
        done,
    }
}
