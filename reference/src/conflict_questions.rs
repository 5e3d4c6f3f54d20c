//! The list of questions about conflicts put to both programs (kind 8).
//!
//! Every pair is asked in both orders. Words are made by giving a register to
//! one of a row's roles; the rest is anything.

use crate::instruction::Form;
use crate::layout::Row;
use crate::once::Once;
use crate::question::Question;
use crate::random::Random;
use crate::roles::{
    PREDICATE_ROWS, PREDICATES_READ, PREDICATES_WRITTEN, Role, VECTOR_ROWS, VECTORS_READ,
    VECTORS_WRITTEN, apart, word_of, word_with,
};
use crate::samples;
use crate::setting::{
    ALL_FEATURES, FULL, Setting, VECTOR_LENGTHS, WITHOUT_SME, features_are_allowed,
};
use crate::values::{FEATURES_ABOVE, FEATURES_FOR_PSEL, LENGTHS_NOT_ALLOWED, PRINTED_WORDS};

pub fn generate(seed: u64) -> Vec<Question> {
    let mut list = List {
        questions: Once::new(),
        random: Random::new(seed),
    };
    list.one_register_in_two_roles();
    list.readers_of_one_register();
    list.same_number_in_two_files();
    list.copies();
    list.family();
    list.narrowing_beside_lookups();
    list.any_words_of_two_rows();
    list.every_feature_number();
    list.lengths_not_allowed();
    list.undefined_words();
    list.psel();
    list.questions.into_list()
}

struct List {
    questions: Once<Question>,
    random: Random,
}

impl List {
    /// Asked in both orders, each once.
    fn add(&mut self, setting: Setting, a: u32, b: u32) {
        for (first, second) in [(a, b), (b, a)] {
            self.questions.add(Question::Conflict {
                setting,
                first,
                second,
            });
        }
    }

    /// All features and any allowed vector length.
    fn all_features(&mut self) -> Setting {
        self.any_length(ALL_FEATURES)
    }

    fn any_length(&mut self, features: u32) -> Setting {
        let vl = self.random.pick(&VECTOR_LENGTHS);
        Setting { vl, features }
    }

    /// Every role that writes with every role, on one register: always yes.
    /// P0, P15 and P8 are asked by name, for PEXT2's wrap and the counters.
    fn one_register_in_two_roles(&mut self) {
        let any_predicate = 1 + self.random.below(14);
        for written in PREDICATES_WRITTEN {
            for other in PREDICATES_WRITTEN.into_iter().chain(PREDICATES_READ) {
                for register in [0, 8, 15, any_predicate] {
                    self.ask_roles(ALL_FEATURES, written, other, register);
                }
            }
        }
        for written in VECTORS_WRITTEN {
            for other in VECTORS_WRITTEN.into_iter().chain(VECTORS_READ) {
                // Two registers that fit both roles, from anywhere on; there
                // are none for two different places in one LUTI4's four.
                let start = self.random.below(32);
                let mut asked = 0;
                for register in (0..32).map(|n| (start + 5 * n) % 32) {
                    if asked < 2 && self.ask_roles(ALL_FEATURES, written, other, register) {
                        asked += 1;
                    }
                }
            }
        }
    }

    fn ask_roles(&mut self, features: u32, a: Role, b: Role, register: u32) -> bool {
        let setting = self.any_length(features);
        let first = word_with(&mut self.random, a, register);
        let second = word_with(&mut self.random, b, register);
        match (first, second) {
            (Some(a), Some(b)) => {
                self.add(setting, a, b);
                true
            }
            _ => false,
        }
    }

    /// Two readers of one register, of one W or of ZT0, that write elsewhere:
    /// always no.
    fn readers_of_one_register(&mut self) {
        for a in PREDICATES_READ {
            for b in PREDICATES_READ {
                for _ in 0..3 {
                    let register = 8 + self.random.below(8);
                    self.ask_readers(ALL_FEATURES, a, b, register);
                }
            }
        }
        for a in VECTORS_READ {
            for b in VECTORS_READ {
                for _ in 0..4 {
                    let register = self.random.below(32);
                    self.ask_readers(ALL_FEATURES, a, b, register);
                }
            }
        }
    }

    fn ask_readers(&mut self, features: u32, a: Role, b: Role, register: u32) {
        let setting = self.any_length(features);
        let (first, second) = apart(&mut self.random, a, b, register);
        self.add(setting, first, second);
    }

    /// Z3 beside P3: one number in every field of both words that takes it.
    fn same_number_in_two_files(&mut self) {
        for a in PREDICATE_ROWS {
            for b in VECTOR_ROWS {
                for register in 0..16 {
                    let setting = self.all_features();
                    let first = self.word_of_one_number(a, register);
                    let second = self.word_of_one_number(b, register);
                    self.add(setting, first, second);
                }
            }
        }
    }

    fn word_of_one_number(&mut self, row: Row, register: u32) -> u32 {
        let mut fields = samples::fields_in_range(&mut self.random, row);
        match row {
            Row::Pext1 | Row::Pext2 => fields[4] = register,
            Row::Psel => fields[3..].fill(register),
            Row::Luti4c | Row::Luti4s => fields[2] = register,
            Row::Narrow => fields[3..5].fill(register),
        }
        match row {
            Row::Pext1 | Row::Pext2 if register >= 8 => fields[3] = register,
            Row::Luti4c => fields[3] = register / 4 * 4,
            Row::Luti4s => fields[3] = register % 4,
            Row::Pext1 | Row::Pext2 | Row::Psel | Row::Narrow => {}
        }
        word_of(row.form(), fields)
    }

    /// A word beside itself, also where it cannot be read.
    fn copies(&mut self) {
        for row in Row::ALL {
            for _ in 0..10 {
                let setting = self.all_features();
                let word = samples::matching_word(&mut self.random, row);
                self.add(setting, word, word);
            }
        }
        for word in PRINTED_WORDS {
            self.add(FULL, word, word);
        }
    }

    /// Any two of the sixteen: into one register, from the other's result,
    /// from one source, and with nothing in common.
    fn family(&mut self) {
        for a in 0..16 {
            for b in a..16 {
                let [w, x, y, z] = self.four_registers();
                for (first, second) in [
                    ([w, x], [y, x]),
                    ([w, x], [x, y]),
                    ([x, w], [y, x]),
                    ([w, x], [w, y]),
                    ([w, x], [y, z]),
                ] {
                    let setting = self.all_features();
                    let first = self.narrowing(a, first);
                    let second = self.narrowing(b, second);
                    self.add(setting, first, second);
                }
            }
        }
    }

    /// A narrowing word's Zd written or read by a lookup, its Zn written or
    /// read by one, and nothing in common.
    fn narrowing_beside_lookups(&mut self) {
        for bits in 0..16 {
            for row in [Row::Luti4c, Row::Luti4s] {
                // Among the lookup's four: Z8 to Z11, or Z1, Z5, Z9 and Z13.
                let (first, step) = if row == Row::Luti4c { (8, 1) } else { (1, 4) };
                let among = first + step * self.random.below(4);
                for [zn, zd] in [[20, among], [20, 24], [among, 20], [24, 20], [20, 21]] {
                    let setting = self.all_features();
                    let mut fields = samples::fields_in_range(&mut self.random, row);
                    fields[2..4].copy_from_slice(&[24, first]);
                    let lookup = word_of(row.form(), fields);
                    let narrow = self.narrowing(bits, [zn, zd]);
                    self.add(setting, narrow, lookup);
                }
            }
        }
    }

    /// Z registers of which no two are one.
    fn four_registers(&mut self) -> [u32; 4] {
        let first = self.random.below(32);
        [0, 7, 13, 22].map(|distance| (first + distance) % 32)
    }

    /// Any size and shift, from and to these registers.
    fn narrowing(&mut self, bits: u32, registers: [u32; 2]) -> u32 {
        let mut fields = samples::fields_in_range(&mut self.random, Row::Narrow);
        fields[0] = bits;
        fields[3..5].copy_from_slice(&registers);
        word_of(Form::Narrow, fields)
    }

    fn any_words_of_two_rows(&mut self) {
        for (place, a) in Row::ALL.into_iter().enumerate() {
            for b in Row::ALL.into_iter().skip(place) {
                for _ in 0..11 {
                    let setting = self.all_features();
                    let first = samples::matching_word(&mut self.random, a);
                    let second = samples::matching_word(&mut self.random, b);
                    self.add(setting, first, second);
                }
            }
        }
    }

    /// Two rows under every feature number, so that each of the two words can
    /// be the one that is not read.
    fn every_feature_number(&mut self) {
        let any = (0..=ALL_FEATURES).chain(FEATURES_ABOVE);
        let allowed = (0..=ALL_FEATURES).filter(|&n| features_are_allowed(n));
        for features in any {
            let a = self.random.pick(&Row::ALL);
            let b = self.random.pick(&Row::ALL);
            self.ask_rows(features, a, b);
        }
        for features in allowed {
            for (place, a) in Row::ALL.into_iter().enumerate() {
                let b = self.random.pick(&Row::ALL[place..]);
                self.ask_rows(features, a, b);
            }
        }
    }

    fn ask_rows(&mut self, features: u32, a: Row, b: Row) {
        let setting = self.any_length(features);
        let first = samples::matching_word(&mut self.random, a);
        let second = samples::matching_word(&mut self.random, b);
        self.add(setting, first, second);
    }

    /// With words that are read and one that is not: 1 comes before 3.
    fn lengths_not_allowed(&mut self) {
        for vl in LENGTHS_NOT_ALLOWED {
            let features = ALL_FEATURES;
            let row = self.random.pick(&Row::ALL);
            let first = samples::matching_word(&mut self.random, row);
            let second = samples::near_miss(&mut self.random);
            self.add(Setting { vl, features }, first, second);
            self.add(Setting { vl, features }, first, first);
        }
    }

    fn undefined_words(&mut self) {
        for row in Row::ALL {
            for _ in 0..8 {
                let setting = self.all_features();
                let word = samples::matching_word(&mut self.random, row);
                let miss = samples::near_miss(&mut self.random);
                self.add(setting, word, miss);
            }
        }
        for _ in 0..10 {
            let setting = self.all_features();
            let miss = samples::near_miss(&mut self.random);
            let other = samples::near_miss(&mut self.random);
            self.add(setting, miss, other);
        }
    }

    /// PSEL beside every row under the feature numbers it hangs on; and with
    /// SVE2p1 alone in each of its roles beside every role that it can meet.
    fn psel(&mut self) {
        for features in FEATURES_FOR_PSEL {
            for row in Row::ALL {
                self.ask_rows(features, Row::Psel, row);
            }
        }
        let has_psel = |a: Role, b: Role| [a.row, b.row].contains(&Row::Psel);
        for written in PREDICATES_WRITTEN {
            for other in PREDICATES_WRITTEN.into_iter().chain(PREDICATES_READ) {
                if has_psel(written, other) {
                    let register = 8 + self.random.below(8);
                    self.ask_roles(WITHOUT_SME, written, other, register);
                }
            }
        }
        for a in PREDICATES_READ {
            for b in PREDICATES_READ {
                if has_psel(a, b) {
                    let register = 8 + self.random.below(8);
                    self.ask_readers(WITHOUT_SME, a, b, register);
                }
            }
        }
    }
}

#[cfg(test)]
mod tests {
    use super::*;
    use crate::once::check_list;

    #[test]
    fn about_three_thousand_and_a_half() {
        check_list(generate, 3000..=4000);
    }
}
