//! A question about one step on a whole machine, and the answer of this
//! program.

use crate::refusal::number_of;
use crate::start::{Start, numbers_of};
use crate::step::step;

#[derive(Clone, Copy, Debug, PartialEq, Eq, Hash)]
pub struct StepQuestion {
    pub start: Start,
    pub word: u32,
}

/// Number, then the machine as it is after the step: W12 to W15, PC (high,
/// low), flags, the hashes of Z, P and ZT0 (high, low).
pub type StepAnswer = [u32; 14];

impl StepQuestion {
    pub fn answer(&self) -> StepAnswer {
        let mut machine = self.start.machine();
        let mut answer = [0; 14];
        answer[0] = number_of(&step(self.start.setting, self.word, &mut machine));
        answer[1..].copy_from_slice(&numbers_of(&machine));
        answer
    }
}
