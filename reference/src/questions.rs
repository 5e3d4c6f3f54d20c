//! The list of questions about reading and writing words put to both programs
//! (kinds 0 to 6, 11 and 12).
//!
//! What must be asked is asked by construction, one function for each kind of
//! case; the seed only fills in what may be anything. A question that comes up
//! twice is kept once.

mod family;
mod pext;
mod psel;
mod retired;

use crate::instruction::Form;
use crate::layout::Row;
use crate::once::Once;
use crate::question::Question;
use crate::random::Random;
use crate::samples;
use crate::setting::{ALL_FEATURES, FULL, Setting, VECTOR_LENGTHS, features_are_allowed};
use crate::values::FIELD_VALUES;
pub use crate::values::{FEATURES_ABOVE, LENGTHS_NOT_ALLOWED, PRINTED_WORDS};

pub const DEFAULT_SEED: u64 = 1;

pub fn generate(seed: u64) -> Vec<Question> {
    let mut list = List {
        questions: Once::new(),
        random: Random::new(seed),
    };
    list.printed_words();
    list.every_feature_number();
    list.every_vector_length();
    list.both_numbers_not_allowed();
    list.every_value_of_every_word_field();
    list.failing_conditions();
    list.one_bit_away();
    list.two_bits_away();
    list.any_words();
    list.values_in_every_field();
    list.every_immediate();
    list.several_fields_out_of_range();
    list.fields_in_range();
    list.family();
    list.retired();
    list.psel();
    list.pext();
    list.questions.into_list()
}

struct List {
    questions: Once<Question>,
    random: Random,
}

impl List {
    fn add(&mut self, question: Question) {
        self.questions.add(question);
    }

    fn decode(&mut self, setting: Setting, word: u32) {
        self.add(Question::Decode { setting, word });
    }

    fn encode(&mut self, setting: Setting, form: Form, fields: [u32; 6]) {
        self.add(Question::Encode {
            setting,
            form,
            fields,
        });
    }

    fn any_length(&mut self) -> u32 {
        self.random.pick(&VECTOR_LENGTHS)
    }

    /// All features and any allowed vector length.
    fn all_features(&mut self) -> Setting {
        Setting {
            vl: self.any_length(),
            features: ALL_FEATURES,
        }
    }

    /// Fields with one outside its range: by the toss of a coin next to it, or
    /// far off.
    fn fields_out_of_range(&mut self, row: Row) -> [u32; 6] {
        let mut fields = samples::fields_in_range(&mut self.random, row);
        let place = self.random.below(row.form().field_count() as u32) as usize;
        fields[place] = if self.random.coin() {
            self.random.pick(samples::values_outside(row.form(), place))
        } else {
            // 66 and above is in no range, whatever the field.
            66 + self.random.below(u32::MAX - 66)
        };
        fields
    }

    /// Document 01's own words under every allowed feature number, and under
    /// all features at every length.
    fn printed_words(&mut self) {
        for word in PRINTED_WORDS {
            self.decode(FULL, word);
            for features in (0..=ALL_FEATURES).filter(|&n| features_are_allowed(n)) {
                self.decode(Setting { vl: 128, features }, word);
            }
        }
        for vl in VECTOR_LENGTHS {
            let word = self.random.pick(&PRINTED_WORDS);
            let features = ALL_FEATURES;
            self.decode(Setting { vl, features }, word);
        }
    }

    /// Every row under every feature number and some above, at an allowed
    /// length: words that match and that do not, fields in range and out.
    fn every_feature_number(&mut self) {
        for features in (0..=ALL_FEATURES).chain(FEATURES_ABOVE) {
            for row in Row::ALL {
                let vl = self.any_length();
                let setting = Setting { vl, features };
                self.ask_all_four(setting, row);
            }
        }
    }

    /// Every row at every length, allowed or not, under all features.
    fn every_vector_length(&mut self) {
        for vl in VECTOR_LENGTHS.into_iter().chain(LENGTHS_NOT_ALLOWED) {
            for row in Row::ALL {
                let features = ALL_FEATURES;
                self.ask_all_four(Setting { vl, features }, row);
            }
        }
    }

    fn both_numbers_not_allowed(&mut self) {
        for row in Row::ALL {
            let vl = self.random.pick(&LENGTHS_NOT_ALLOWED);
            let features = self.random.pick(&FEATURES_ABOVE);
            self.ask_all_four(Setting { vl, features }, row);
        }
    }

    fn ask_all_four(&mut self, setting: Setting, row: Row) {
        let word = samples::matching_word(&mut self.random, row);
        self.decode(setting, word);
        let word = samples::near_miss(&mut self.random);
        self.decode(setting, word);
        let fields = samples::fields_in_range(&mut self.random, row);
        self.encode(setting, row.form(), fields);
        let fields = self.fields_out_of_range(row);
        self.encode(setting, row.form(), fields);
    }

    /// Each field of a word through all its values, the others anything.
    fn every_value_of_every_word_field(&mut self) {
        for row in Row::ALL {
            for &mask in samples::field_masks(row) {
                for value in 0..1 << mask.count_ones() {
                    let setting = self.all_features();
                    let word = samples::matching_word(&mut self.random, row);
                    self.decode(setting, (word & !mask) | samples::spread(value, mask));
                }
            }
        }
    }

    /// Words with a row's fixed bits that fail its field condition.
    fn failing_conditions(&mut self) {
        for row in Row::ALL {
            let (mask, values) = samples::failing_conditions(row);
            for &value in values {
                for _ in 0..8 {
                    let setting = self.all_features();
                    let word = samples::matching_word(&mut self.random, row);
                    self.decode(setting, (word & !mask) | value);
                }
            }
        }
    }

    /// Every single bit of two words for each row.
    fn one_bit_away(&mut self) {
        for row in Row::ALL {
            for _ in 0..2 {
                let setting = self.all_features();
                let word = samples::matching_word(&mut self.random, row);
                self.decode(setting, word);
                for bit in 0..32 {
                    self.decode(setting, word ^ (1 << bit));
                }
            }
        }
    }

    fn two_bits_away(&mut self) {
        for row in Row::ALL {
            for _ in 0..90 {
                let setting = self.all_features();
                let word = samples::flipped_word(&mut self.random, row, 2);
                self.decode(setting, word);
            }
        }
    }

    fn any_words(&mut self) {
        for _ in 0..200 {
            let setting = self.all_features();
            let word = self.random.next_u32();
            self.decode(setting, word);
        }
    }

    /// Every field in turn given every one of `FIELD_VALUES`, the others in
    /// range. Where a range hangs on the size, this is done for each size.
    fn values_in_every_field(&mut self) {
        for row in Row::ALL {
            for place in 0..row.form().field_count() {
                let by_size: &[u32] = match (row, place) {
                    (Row::Psel, 1) => &[8, 16, 32, 64],
                    (Row::Narrow, 2) => &[8, 16, 32],
                    _ => &[],
                };
                if by_size.is_empty() {
                    self.values_in_field(row, place, None);
                }
                for &size in by_size {
                    self.values_in_field(row, place, Some(size));
                }
            }
        }
    }

    fn values_in_field(&mut self, row: Row, place: usize, size: Option<u32>) {
        for value in FIELD_VALUES {
            let setting = self.all_features();
            let mut fields = samples::fields_in_range(&mut self.random, row);
            if let Some(size) = size {
                // It stands just before the field whose range hangs on it.
                fields[place - 1] = size;
            }
            // The field after the size must be in range whatever the size is,
            // so that only the size decides.
            match (row, place) {
                (Row::Psel, 0) => fields[1] = self.random.below(2),
                (Row::Narrow, 1) => fields[2] = 1 + self.random.below(8),
                _ => {}
            }
            fields[place] = value;
            self.encode(setting, row.form(), fields);
        }
    }

    /// PSEL's offset and the narrowing words' shift at every value for every size, and
    /// one too far at each end.
    fn every_immediate(&mut self) {
        for size in [8, 16, 32, 64] {
            for offset in 0..=128 / size {
                let setting = self.all_features();
                let mut fields = samples::fields_in_range(&mut self.random, Row::Psel);
                fields[0] = size;
                fields[1] = offset;
                self.encode(setting, Form::Psel, fields);
            }
        }
        for size in [8, 16, 32] {
            for shift in 0..=size + 1 {
                let setting = self.all_features();
                let mut fields = samples::fields_in_range(&mut self.random, Row::Narrow);
                fields[1] = size;
                fields[2] = shift;
                self.encode(setting, Form::Narrow, fields);
            }
        }
    }

    /// Every field any number at all, or one of `FIELD_VALUES`.
    fn several_fields_out_of_range(&mut self) {
        for form in Form::ALL {
            for _ in 0..10 {
                let setting = self.all_features();
                let mut fields = [0; 6];
                let mut other = [0; 6];
                for place in 0..form.field_count() {
                    fields[place] = self.random.next_u32();
                    other[place] = self.random.pick(&FIELD_VALUES);
                }
                self.encode(setting, form, fields);
                self.encode(setting, form, other);
            }
        }
    }

    /// Fields in range, for each row under every allowed feature number and
    /// more of them under all features.
    fn fields_in_range(&mut self) {
        for row in Row::ALL {
            for features in (0..=ALL_FEATURES).filter(|&n| features_are_allowed(n)) {
                let vl = self.any_length();
                let fields = samples::fields_in_range(&mut self.random, row);
                self.encode(Setting { vl, features }, row.form(), fields);
            }
            for _ in 0..40 {
                let setting = self.all_features();
                let fields = samples::fields_in_range(&mut self.random, row);
                self.encode(setting, row.form(), fields);
            }
        }
    }
}

#[cfg(test)]
mod tests {
    use super::*;
    use crate::once::check_list;

    #[test]
    fn twelve_to_fourteen_thousand() {
        check_list(generate, 12_000..=14_000);
    }
}
