//! The list of questions about steps put to both programs (kind 7).
//!
//! As with the other questions, what must be asked is asked by construction
//! and the seed fills in the rest: registers, scalars and all file contents,
//! the bits above VL among them. A question that comes up twice is kept once.

mod counters;
mod elements;
mod forms;
mod overlaps;
mod psel;
mod refusals;

use crate::instruction::Form;
use crate::layout::Row;
use crate::machine::{Flags, P_SLOT_BYTES, Z_FILE_BYTES, Z_SLOT_BYTES};
use crate::once::Once;
use crate::random::Random;
use crate::roles::word_of;
use crate::samples;
use crate::setting::{ALL_FEATURES, Setting, VECTOR_LENGTHS};
use crate::start::Start;
use crate::step_question::StepQuestion;

pub fn generate(seed: u64) -> Vec<StepQuestion> {
    let mut list = List {
        questions: Once::new(),
        random: Random::new(seed),
    };
    list.forms();
    list.counters();
    list.elements();
    list.overlaps();
    list.refusals();
    list.psel();
    list.questions.into_list()
}

struct List {
    questions: Once<StepQuestion>,
    random: Random,
}

impl List {
    fn add(&mut self, question: StepQuestion) {
        self.questions.add(question);
    }

    fn any_length(&mut self) -> u32 {
        self.random.pick(&VECTOR_LENGTHS)
    }

    /// Fields of the row's form, all in their ranges.
    fn fields(&mut self, row: Row) -> [u32; 6] {
        samples::fields_in_range(&mut self.random, row)
    }

    /// A register below `count` that is none of these.
    fn register_apart(&mut self, count: u32, from: &[u32]) -> u32 {
        loop {
            let register = self.random.below(count);
            if !from.contains(&register) {
                return register;
            }
        }
    }

    /// A word on any machine with everything allowed and open. PC is a
    /// multiple of 4 here.
    fn open(&mut self, vl: u32, word: u32) -> StepQuestion {
        let features = ALL_FEATURES;
        let mut start = Start::any(&mut self.random, Setting { vl, features });
        start.pc &= !3;
        StepQuestion { start, word }
    }

    /// The same for an instruction given by its fields.
    fn open_form(&mut self, vl: u32, form: Form, fields: [u32; 6]) -> StepQuestion {
        self.open(vl, word_of(form, fields))
    }
}

fn flags(number: u32) -> Flags {
    Flags::from_number(number).expect("three bits")
}

impl StepQuestion {
    /// With the low 16 bits of a P register chosen.
    fn with_predicate(self, register: u32, value: u16) -> StepQuestion {
        self.with_predicate_at(register, 0, value)
    }

    /// With the 16 bits from a byte of a P register chosen.
    fn with_predicate_at(mut self, register: u32, byte: u32, value: u16) -> StepQuestion {
        self.start.set_predicate(register, byte, value);
        self
    }

    /// With the 32 bits from a byte of a Z register chosen.
    fn with_vector(mut self, register: u32, byte: u32, value: u32) -> StepQuestion {
        self.start.set_vector(register, byte, value);
        self
    }

    /// With a 64-bit element of a Z register chosen.
    fn with_wide_element(self, register: u32, element: u32, value: u64) -> StepQuestion {
        self.with_eight_bytes(register * Z_SLOT_BYTES as u32 + 8 * element, value)
    }

    /// With the 64 bits of one of a P register's four parts chosen.
    fn with_wide_predicate(self, register: u32, part: u32, value: u64) -> StepQuestion {
        // One stream fills the Z file and then the P file.
        let slot = Z_FILE_BYTES as u32 + register * P_SLOT_BYTES as u32;
        self.with_eight_bytes(slot + 8 * part, value)
    }

    /// With eight bytes of the files chosen, by a seed that gives them.
    fn with_eight_bytes(mut self, byte: u32, value: u64) -> StepQuestion {
        self.start.contents.seed = Random::seed_for(value, u64::from(byte / 8));
        self
    }
}

#[cfg(test)]
mod tests {
    use super::*;
    use crate::once::check_list;

    #[test]
    fn at_most_sixteen_thousand() {
        check_list(generate, 10_000..=16_000);
    }

    #[test]
    fn what_is_chosen_is_there() {
        let mut list = List {
            questions: Once::new(),
            random: Random::new(5),
        };
        let question = list.open(512, 0);
        let machine = question.with_predicate(15, 0x8021).start.machine();
        assert_eq!(machine.p[480..482], [0x21, 0x80]);
        let machine = question.with_vector(31, 12, 0x0123_4567).start.machine();
        assert_eq!(machine.z[7948..7952], [0x67, 0x45, 0x23, 0x01]);
        let machine = question
            .with_wide_element(30, 3, u64::MAX - 1)
            .start
            .machine();
        assert_eq!(machine.z[7704..7712], (u64::MAX - 1).to_le_bytes());
        let question = question.with_wide_predicate(15, 3, u64::MAX - 2);
        let machine = question.with_predicate_at(14, 30, 0x8421).start.machine();
        assert_eq!(machine.p[504..], (u64::MAX - 2).to_le_bytes());
        assert_eq!(machine.p[478..480], [0x21, 0x84]);
    }
}
