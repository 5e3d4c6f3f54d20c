//! A question about a run on a whole machine, and the answer of this program.

use crate::run::run;
use crate::start::{Start, numbers_of};

#[derive(Clone, Debug, PartialEq, Eq, Hash)]
pub struct RunQuestion {
    pub start: Start,
    /// The stretch.
    pub words: Vec<u32>,
}

/// Number, how many words were done, then the machine as it is after the run:
/// W12 to W15, PC (high, low), flags, the hashes of Z, P and ZT0 (high, low).
pub type RunAnswer = [u32; 15];

impl RunQuestion {
    pub fn answer(&self) -> RunAnswer {
        let mut machine = self.start.machine();
        let outcome = run(self.start.setting, &self.words, &mut machine);
        let mut answer = [0; 15];
        answer[0] = outcome.number();
        // Never more than 256.
        answer[1] = outcome.done as u32;
        answer[2..].copy_from_slice(&numbers_of(&machine));
        answer
    }
}
