//! Settings, file lengths, words and flags that are refused, alone and
//! together.

use super::{List, flags};
use crate::instruction::Form;
use crate::layout::Row;
use crate::samples;
use crate::setting::{ALL_FEATURES, VECTOR_LENGTHS};
use crate::step_question::StepQuestion;
use crate::values::{FEATURES_ABOVE, FEATURES_FOR_FLAGS, LENGTHS_NOT_ALLOWED, PRINTED_WORDS};

impl List {
    pub(super) fn refusals(&mut self) {
        self.every_feature_number();
        self.lengths_not_allowed();
        self.every_flag();
        self.wrong_files();
        self.undefined_words();
        self.family();
        self.competing_refusals();
    }

    /// A word of the row with everything else in order.
    fn any_open(&mut self, row: Row) -> StepQuestion {
        let vl = self.any_length();
        let word = samples::matching_word(&mut self.random, row);
        self.open(vl, word)
    }

    fn every_feature_number(&mut self) {
        for features in (0..=ALL_FEATURES).chain(FEATURES_ABOVE) {
            for row in Row::ALL {
                let mut question = self.any_open(row);
                question.start.setting.features = features;
                self.add(question);
            }
        }
    }

    fn lengths_not_allowed(&mut self) {
        for vl in LENGTHS_NOT_ALLOWED {
            for _ in 0..3 {
                let row = self.random.pick(&Row::ALL);
                let mut question = self.any_open(row);
                question.start.setting.vl = vl;
                self.add(question);
            }
        }
    }

    fn every_flag(&mut self) {
        for features in FEATURES_FOR_FLAGS {
            for row in Row::ALL {
                for number in 0..8 {
                    let mut question = self.any_open(row);
                    question.start.setting.features = features;
                    question.start.flags = flags(number);
                    self.add(question);
                }
            }
        }
        // Only T closed is rare among the others: each lookup at every length,
        // whether V is open or not.
        for vl in VECTOR_LENGTHS {
            for row in [Row::Luti4c, Row::Luti4s] {
                for number in [2, 3] {
                    let word = samples::matching_word(&mut self.random, row);
                    let mut question = self.open(vl, word);
                    question.start.flags = flags(number);
                    self.add(question);
                }
            }
        }
    }

    /// Each file one byte short, one long, empty, doubled and halved, and with
    /// the length of another; whatever the word touches.
    fn wrong_files(&mut self) {
        for row in Row::ALL {
            for (file, right) in [(0, 8192), (1, 512), (2, 64)] {
                let other = [8192, 512, 64][(file + 1) % 3];
                for length in [right - 1, right + 1, 0, 2 * right, right / 2, other] {
                    let mut question = self.any_open(row);
                    question.start.set_length(file, length);
                    self.add(question);
                }
            }
            // All wrong at once, and all empty.
            for lengths in [[8191, 513, 65], [0, 0, 0]] {
                let mut question = self.any_open(row);
                for (file, length) in lengths.into_iter().enumerate() {
                    question.start.set_length(file, length);
                }
                self.add(question);
            }
        }
    }

    fn undefined_words(&mut self) {
        for word in PRINTED_WORDS {
            for vl in VECTOR_LENGTHS {
                let question = self.open(vl, word);
                self.add(question);
            }
        }
        for _ in 0..60 {
            let vl = self.any_length();
            let word = samples::near_miss(&mut self.random);
            let question = self.open(vl, word);
            self.add(question);
        }
        for _ in 0..20 {
            let vl = self.any_length();
            let word = self.random.next_u32();
            let question = self.open(vl, word);
            self.add(question);
        }
    }

    /// Each narrowing word with V closed and only V open, under either of its
    /// features; without any; and with tszh:tszl 000.
    fn family(&mut self) {
        for bits in 0..16 {
            for features in [1, 4] {
                for number in [1, 6] {
                    let mut question = self.narrowing(bits);
                    question.start.setting.features = features;
                    question.start.flags = flags(number);
                    self.add(question);
                }
            }
            let mut question = self.narrowing(bits);
            question.start.setting.features = 0;
            self.add(question);
            let vl = self.any_length();
            let (imm3, zn) = (self.random.below(8), self.random.below(32));
            let zd = self.random.below(32);
            let question = self.open(vl, samples::narrow_word(bits, imm3, zn, zd));
            self.add(question);
        }
    }

    /// A narrowing word with everything else in order.
    fn narrowing(&mut self, bits: u32) -> StepQuestion {
        let vl = self.any_length();
        let mut fields = self.fields(Row::Narrow);
        fields[0] = bits;
        self.open_form(vl, Form::Narrow, fields)
    }

    /// Every set of reasons for a refusal together with every set of flags, so
    /// that the order among them shows. PEXT is asked without SVE2p1, where it
    /// needs S.
    fn competing_refusals(&mut self) {
        for reasons in 0..8 {
            for number in 0..8 {
                for row in [Row::Pext2, Row::Luti4c, self.random.pick(&Row::ALL)] {
                    let mut question = self.any_open(row);
                    question.start.setting.features = 28;
                    question.start.flags = flags(number);
                    if reasons & 1 != 0 {
                        if self.random.coin() {
                            question.start.setting.vl = self.random.pick(&LENGTHS_NOT_ALLOWED);
                        } else {
                            question.start.setting.features = self.random.pick(&FEATURES_ABOVE);
                        }
                    }
                    if reasons & 2 != 0 {
                        let file = self.random.below(3) as usize;
                        let length = self.random.below(64);
                        question.start.set_length(file, length);
                    }
                    if reasons & 4 != 0 {
                        question.word = samples::near_miss(&mut self.random);
                    }
                    self.add(question);
                }
            }
        }
    }
}
