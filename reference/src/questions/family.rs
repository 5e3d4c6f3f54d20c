//! The narrowing family, word by word.

use super::List;
use crate::instruction::Form;
use crate::layout::Row;
use crate::samples::{fields_in_range, narrow_word};
use crate::setting::{ALL_FEATURES, FULL, Setting, features_are_allowed};
use crate::values::NARROW_WORDS;

impl List {
    pub(super) fn family(&mut self) {
        self.first_words();
        self.every_size_and_shift();
        self.every_allowed_feature_number();
        self.next_to_the_ranges();
        self.undefined_sizes();
    }

    fn first_words(&mut self) {
        for word in NARROW_WORDS {
            self.decode(FULL, word);
        }
    }

    /// Each of the sixteen at every size and shift, read and written.
    fn every_size_and_shift(&mut self) {
        for bits in 0..16 {
            for size in [8, 16, 32] {
                for shift in 1..=size {
                    let [.., zn, zd, _] = fields_in_range(&mut self.random, Row::Narrow);
                    let setting = self.all_features();
                    self.decode(setting, narrow_word(bits, 2 * size - shift, zn, zd));
                    self.encode(setting, Form::Narrow, [bits, size, shift, zn, zd, 0]);
                }
            }
        }
    }

    fn every_allowed_feature_number(&mut self) {
        for bits in 0..16 {
            for features in (0..=ALL_FEATURES).filter(|&n| features_are_allowed(n)) {
                let mut fields = fields_in_range(&mut self.random, Row::Narrow);
                fields[0] = bits;
                let [_, size, shift, zn, zd, _] = fields;
                let vl = self.any_length();
                let setting = Setting { vl, features };
                self.decode(setting, narrow_word(bits, 2 * size - shift, zn, zd));
                self.encode(setting, Form::Narrow, fields);
            }
        }
    }

    /// For each of the sixteen one field just outside its range, the others
    /// inside theirs; for the four bits, numbers that a mask would let in.
    fn next_to_the_ranges(&mut self) {
        for bits in 0..16 {
            for more in [16, 32, 256, 65536, 1 << 31, u32::MAX - 15] {
                self.with_field(bits, 0, more + bits);
            }
            for size in [0, 4, 7, 9, 15, 17, 31, 33, 64] {
                self.with_field(bits, 1, size);
            }
            for size in [8, 16, 32] {
                for shift in [0, size + 1] {
                    let mut fields = fields_in_range(&mut self.random, Row::Narrow);
                    fields[..3].copy_from_slice(&[bits, size, shift]);
                    let setting = self.all_features();
                    self.encode(setting, Form::Narrow, fields);
                }
            }
            self.with_field(bits, 3, 32);
            self.with_field(bits, 4, 32);
        }
        for bits in [16, 31, u32::MAX] {
            self.with_field(0, 0, bits);
        }
    }

    /// The shift is at most 8, so that it is in range whatever the size is.
    fn with_field(&mut self, bits: u32, place: usize, value: u32) {
        let mut fields = fields_in_range(&mut self.random, Row::Narrow);
        fields[0] = bits;
        fields[2] = 1 + self.random.below(8);
        fields[place] = value;
        let setting = self.all_features();
        self.encode(setting, Form::Narrow, fields);
    }

    /// tszh:tszl 000 with each imm3 in turn, for each of the sixteen.
    fn undefined_sizes(&mut self) {
        for bits in 0..16 {
            self.decode(FULL, narrow_word(bits, 0, 0, 0));
            for imm3 in [bits % 8, (bits + 3) % 8, 7] {
                let (zn, zd) = (self.random.below(32), self.random.below(32));
                let setting = self.all_features();
                self.decode(setting, narrow_word(bits, imm3, zn, zd));
            }
        }
    }
}
