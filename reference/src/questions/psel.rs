//! PSEL under the feature numbers it hangs on (document 02, request 2).

use super::List;
use crate::instruction::Form;
use crate::layout::Row;
use crate::samples::{fields_in_range, psel_word};
use crate::setting::Setting;
use crate::values::FEATURES_FOR_PSEL;

impl List {
    pub(super) fn psel(&mut self) {
        for features in FEATURES_FOR_PSEL {
            self.psel_words(features);
            self.psel_fields(features);
        }
    }

    /// Every i1:tszh:tszl, those of no size among them.
    fn psel_words(&mut self, features: u32) {
        for imm in 0..32 {
            let vl = self.any_length();
            let [_, _, index, pn, pm, pd] = fields_in_range(&mut self.random, Row::Psel);
            let word = psel_word(imm, index - 12, pn, pm, pd);
            self.decode(Setting { vl, features }, word);
        }
    }

    /// Each size with the first offset, the last, and one too far: 9 comes
    /// before 3.
    fn psel_fields(&mut self, features: u32) {
        for size in [8, 16, 32, 64] {
            for offset in [0, 128 / size - 1, 128 / size] {
                let vl = self.any_length();
                let mut fields = fields_in_range(&mut self.random, Row::Psel);
                fields[..2].copy_from_slice(&[size, offset]);
                self.encode(Setting { vl, features }, Form::Psel, fields);
            }
        }
    }
}
