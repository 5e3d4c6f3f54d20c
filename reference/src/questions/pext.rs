//! PEXT by its first portion and the number of them (document 02, request 8).

use super::List;
use crate::instruction::Form;
use crate::layout::Row;
use crate::samples::{fields_in_range, pext_word};
use crate::setting::{ALL_FEATURES, Setting, features_are_allowed};
use crate::values::{FEATURES_ABOVE, FIRST_PORTIONS, LENGTHS_NOT_ALLOWED, NUMBERS_OF_PORTIONS};

/// Every first portion with every number of portions that a word has.
const PORTIONS: [(u32, u32); 6] = [(0, 1), (1, 1), (2, 1), (3, 1), (0, 2), (2, 2)];

/// One of each number, and each of the three ways to be out of range: a number
/// other than 1 or 2, a first portion above 3, and an odd one where two are
/// asked.
const PORTIONS_IN_AND_OUT: [(u32, u32); 5] = [(3, 1), (2, 2), (0, 3), (4, 1), (1, 2)];

impl List {
    pub(super) fn pext(&mut self) {
        self.pext_words();
        self.every_first_and_number();
        self.every_counter_and_destination();
        self.pext_under_every_allowed_feature_number();
        self.pext_under_settings_not_allowed();
    }

    /// Both layouts at every size and immediate: with every counter register,
    /// with every Pd, and under every feature number.
    fn pext_words(&mut self) {
        for (first, portions) in PORTIONS {
            for size in 0..4 {
                for register in 0..8 {
                    let setting = self.all_features();
                    let pd = self.random.below(16);
                    self.decode(setting, pext_word(size, first, portions, register, pd));
                }
                for pd in 0..16 {
                    let setting = self.all_features();
                    let register = self.random.below(8);
                    self.decode(setting, pext_word(size, first, portions, register, pd));
                }
            }
            for features in (0..=ALL_FEATURES).chain(FEATURES_ABOVE) {
                let vl = self.any_length();
                let (size, register) = (self.random.below(4), self.random.below(8));
                let word = pext_word(size, first, portions, register, self.random.below(16));
                self.decode(Setting { vl, features }, word);
            }
        }
    }

    /// With each size and everything else in range, so that the two decide.
    fn every_first_and_number(&mut self) {
        for size in [8, 16, 32, 64] {
            for first in FIRST_PORTIONS {
                for portions in NUMBERS_OF_PORTIONS {
                    let setting = self.all_features();
                    let mut fields = self.with_portions(first, portions);
                    fields[0] = size;
                    self.encode(setting, Form::Pext, fields);
                }
            }
        }
    }

    /// Every counter register with every Pd, and the numbers next to both
    /// ranges, for one portion and for two.
    fn every_counter_and_destination(&mut self) {
        for row in [Row::Pext1, Row::Pext2] {
            for counter in 7..=16 {
                for pd in (0..=16).chain([u32::MAX]) {
                    let setting = self.all_features();
                    let mut fields = fields_in_range(&mut self.random, row);
                    fields[3..5].copy_from_slice(&[counter, pd]);
                    self.encode(setting, Form::Pext, fields);
                }
            }
        }
    }

    /// Where the feature is missing this is 3, but 9 comes before it.
    fn pext_under_every_allowed_feature_number(&mut self) {
        for features in (0..=ALL_FEATURES).filter(|&n| features_are_allowed(n)) {
            for first in 0..=5 {
                for portions in 0..=4 {
                    let vl = self.any_length();
                    let fields = self.with_portions(first, portions);
                    self.encode(Setting { vl, features }, Form::Pext, fields);
                }
            }
            for (place, value) in [(0, 24), (3, 7), (3, 16), (4, 16)] {
                for row in [Row::Pext1, Row::Pext2] {
                    let vl = self.any_length();
                    let mut fields = fields_in_range(&mut self.random, row);
                    fields[place] = value;
                    self.encode(Setting { vl, features }, Form::Pext, fields);
                }
            }
        }
    }

    /// 1 comes before 9.
    fn pext_under_settings_not_allowed(&mut self) {
        let mut settings = Vec::new();
        for features in (0..=ALL_FEATURES).chain(FEATURES_ABOVE) {
            if !features_are_allowed(features) {
                let vl = self.any_length();
                settings.push(Setting { vl, features });
            }
        }
        for vl in LENGTHS_NOT_ALLOWED {
            let features = ALL_FEATURES;
            settings.push(Setting { vl, features });
        }
        for setting in settings {
            for (first, portions) in PORTIONS_IN_AND_OUT {
                let fields = self.with_portions(first, portions);
                self.encode(setting, Form::Pext, fields);
            }
        }
    }

    /// PEXT's fields with these two, whatever they are, and the others in
    /// range.
    fn with_portions(&mut self, first: u32, portions: u32) -> [u32; 6] {
        let mut fields = fields_in_range(&mut self.random, Row::Pext1);
        fields[1..3].copy_from_slice(&[first, portions]);
        fields
    }
}
