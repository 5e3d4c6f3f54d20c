//! Forms that are not used any more: PEXT1 and PEXT2 apart, and UQRSHRNB
//! alone. Whatever their lists hold, they are refused.

use super::List;
use crate::instruction::RETIRED_FORMS;
use crate::layout::Row;
use crate::question::Question;
use crate::samples::fields_in_range;
use crate::setting::{ALL_FEATURES, FULL, Setting, VECTOR_LENGTHS};
use crate::values::{FEATURES_ABOVE, FIELD_VALUES, LENGTHS_NOT_ALLOWED};

impl List {
    pub(super) fn retired(&mut self) {
        self.retired_under_every_setting();
        self.lists_that_were_words();
        self.lists_that_are_words_of_other_forms();
        self.any_retired_lists();
    }

    fn ask_retired(&mut self, setting: Setting, form: u32, fields: [u32; 6]) {
        self.add(Question::EncodeRetired {
            setting,
            form,
            fields,
        });
    }

    /// A list that was a word, and one that is a word with PEXT's number.
    fn retired_under_every_setting(&mut self) {
        let new = [8, 0, 1, 8, 0, 0];
        for (form, old) in [
            (0, [8, 3, 9, 2, 0, 0]),
            (1, [8, 1, 9, 2, 0, 0]),
            (5, [8, 3, 1, 2, 0, 0]),
        ] {
            for features in (0..=ALL_FEATURES).chain(FEATURES_ABOVE) {
                self.ask_retired(Setting { vl: 128, features }, form, old);
                self.ask_retired(Setting { vl: 128, features }, form, new);
            }
            for vl in VECTOR_LENGTHS.into_iter().chain(LENGTHS_NOT_ALLOWED) {
                let features = ALL_FEATURES;
                self.ask_retired(Setting { vl, features }, form, old);
                self.ask_retired(Setting { vl, features }, form, new);
            }
        }
    }

    /// Each size with every immediate, and with those next to its range; for
    /// PEXT each counter and each Pd too.
    fn lists_that_were_words(&mut self) {
        for (form, immediates) in [(0, 4), (1, 2)] {
            for size in [8, 16, 32, 64] {
                for immediate in 0..=immediates {
                    let [.., counter, pd, _] = fields_in_range(&mut self.random, Row::Pext1);
                    let setting = self.all_features();
                    self.ask_retired(setting, form, [size, immediate, counter, pd, 0, 0]);
                }
            }
            for pd in 0..16 {
                let [size, ..] = fields_in_range(&mut self.random, Row::Pext1);
                let immediate = self.random.below(immediates);
                let setting = self.all_features();
                self.ask_retired(setting, form, [size, immediate, 8 + pd % 8, pd, 0, 0]);
            }
        }
        for size in [8, 16, 32] {
            for shift in 0..=size + 1 {
                let (zn, zd) = (self.random.below(32), self.random.below(32));
                let setting = self.all_features();
                self.ask_retired(setting, 5, [size, shift, zn, zd, 0, 0]);
            }
        }
    }

    /// PEXT's own lists, at every size with all portions, and some of every
    /// other row's.
    fn lists_that_are_words_of_other_forms(&mut self) {
        for form in RETIRED_FORMS {
            for row in [Row::Pext1, Row::Pext2] {
                for size in [8, 16, 32, 64] {
                    for first in 0..4 {
                        let mut fields = fields_in_range(&mut self.random, row);
                        fields[..2].copy_from_slice(&[size, first]);
                        let setting = self.all_features();
                        self.ask_retired(setting, form, fields);
                    }
                }
            }
            for row in Row::ALL {
                for _ in 0..4 {
                    let fields = fields_in_range(&mut self.random, row);
                    let setting = self.all_features();
                    self.ask_retired(setting, form, fields);
                }
            }
        }
    }

    fn any_retired_lists(&mut self) {
        for form in RETIRED_FORMS {
            for _ in 0..20 {
                let setting = self.all_features();
                let fields = [(); 6].map(|()| self.random.pick(&FIELD_VALUES));
                self.ask_retired(setting, form, fields);
            }
            for fields in [[0; 6], [u32::MAX; 6]] {
                self.ask_retired(FULL, form, fields);
            }
        }
    }
}
