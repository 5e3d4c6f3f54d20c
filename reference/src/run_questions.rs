//! The list of questions about runs put to both programs (kind 9).
//!
//! Each stretch of `cases` is run on its machine, and so is each of its
//! rearrangements, permitted or not, on the same one. Then come the runs that
//! are refused, whole or at a word, and the edges of length and PC.

use crate::access::check;
use crate::cases::{self, Case};
use crate::layout::{Row, has_features};
use crate::machine::Flags;
use crate::once::Once;
use crate::random::Random;
use crate::refusal::{Refusal, number_of};
use crate::run::LONGEST_STRETCH;
use crate::run_question::RunQuestion;
use crate::samples::{matching_word, near_miss};
use crate::setting::{ALL_FEATURES, Setting, VECTOR_LENGTHS, features_are_allowed};
use crate::start::Start;
use crate::stretches::{any_stretch, stretch_of};
use crate::values::{
    FEATURES_ABOVE, FEATURES_FOR_FLAGS, FEATURES_FOR_PSEL, LENGTHS_NOT_ALLOWED, PCS_OF_NOTE,
};

pub fn generate(seed: u64) -> Vec<RunQuestion> {
    let mut random = Random::new(seed);
    let cases = cases::generate(&mut random);
    let mut list = List {
        questions: Once::new(),
        random,
    };
    for case in &cases {
        list.both_orders(case);
    }
    list.refused_words();
    list.no_features();
    list.undefined_words();
    list.several_refused_words();
    list.every_flag();
    list.lengths_of_stretches();
    list.every_pc();
    list.every_feature_number();
    list.lengths_not_allowed();
    list.wrong_files();
    list.competing_refusals();
    list.psel();
    list.questions.into_list()
}

struct List {
    questions: Once<RunQuestion>,
    random: Random,
}

impl List {
    fn add(&mut self, start: Start, words: Vec<u32>) {
        self.questions.add(RunQuestion { start, words });
    }

    /// Any machine under these features, at any length.
    fn start(&mut self, features: u32) -> Start {
        let vl = self.random.pick(&VECTOR_LENGTHS);
        Start::any(&mut self.random, Setting { vl, features })
    }

    /// Words that are defined under all features.
    fn words(&mut self, length: usize) -> Vec<u32> {
        stretch_of(&mut self.random, &Row::ALL, length)
    }

    fn both_orders(&mut self, case: &Case) {
        self.add(case.start, case.words.clone());
        for order in case.orders() {
            self.add(case.start, case.rearranged(order));
        }
    }

    /// Each row refused with each number it can have, a missing feature
    /// among them, as the first word, a middle one and the last. The other
    /// words are all accepted.
    fn refused_words(&mut self) {
        for number in 3..=6 {
            for row in Row::ALL {
                let circumstances = circumstances_for(row, number);
                if circumstances.is_empty() {
                    continue;
                }
                for turn in 0..6 {
                    let (features, flags) = self.random.pick(&circumstances);
                    let length = 2 + self.random.below(6) as usize;
                    let mut start = self.start(features);
                    start.flags = flags;
                    let accepted = accepted_rows(start.setting, flags);
                    let mut words = stretch_of(&mut self.random, &accepted, length);
                    let refused = matching_word(&mut self.random, row);
                    words.insert([0, length / 2, length][turn % 3], refused);
                    self.add(start, words);
                }
            }
        }
    }

    /// Without any feature the first word is refused, whatever its row.
    fn no_features(&mut self) {
        for row in Row::ALL {
            let start = self.start(0);
            let mut words = vec![matching_word(&mut self.random, row)];
            words.extend(self.words(2));
            self.add(start, words);
        }
    }

    /// The same as `refused_words` for words that no feature defines.
    fn undefined_words(&mut self) {
        for vl in VECTOR_LENGTHS {
            for turn in 0..3 {
                let length = 2 + self.random.below(6) as usize;
                let mut words = self.words(length);
                let miss = near_miss(&mut self.random);
                words.insert([0, length / 2, length][turn], miss);
                let mut start = self.start(ALL_FEATURES);
                start.setting.vl = vl;
                self.add(start, words);
            }
        }
    }

    /// Words refused with 3, 4 and 6 in every order, some after a word that is
    /// accepted: the first of them decides.
    fn several_refused_words(&mut self) {
        let flags = Flags {
            v: false,
            s: true,
            t: false,
        };
        for order in [
            [0, 1, 2],
            [0, 2, 1],
            [1, 0, 2],
            [1, 2, 0],
            [2, 0, 1],
            [2, 1, 0],
        ] {
            for accepted in 0..2 {
                let refused = [
                    near_miss(&mut self.random),
                    matching_word(&mut self.random, Row::Narrow),
                    matching_word(&mut self.random, Row::Luti4c),
                ];
                // Without SVE2p1 PEXT needs only S.
                let mut words = stretch_of(&mut self.random, &[Row::Pext1, Row::Pext2], accepted);
                words.extend(order.map(|place: usize| refused[place]));
                let mut start = self.start(28);
                start.flags = flags;
                self.add(start, words);
            }
        }
    }

    fn every_flag(&mut self) {
        for features in FEATURES_FOR_FLAGS {
            for number in 0..8 {
                let mut start = self.start(features);
                start.flags = Flags::from_number(number).expect("three bits");
                let words = any_stretch(&mut self.random, start.setting, 4);
                self.add(start, words);
            }
        }
    }

    /// None, one, and those around the most there may be; the longest also
    /// with its last word refused, and across the wrap of PC. One too many is
    /// refused whatever its words are.
    fn lengths_of_stretches(&mut self) {
        for vl in VECTOR_LENGTHS {
            for length in [0, 1, 1] {
                let mut start = self.start(ALL_FEATURES);
                start.setting.vl = vl;
                let words = self.words(length);
                self.add(start, words);
            }
        }
        let most = LONGEST_STRETCH;
        for length in [most - 1, most, most + 1, most + 2, 2 * most] {
            let start = self.start(ALL_FEATURES);
            let words = self.words(length);
            self.add(start, words);
        }
        for (length, refused) in [(most, most - 1), (most, 0), (most + 1, most), (most + 1, 0)] {
            let start = self.start(ALL_FEATURES);
            let mut words = self.words(length);
            words[refused] = near_miss(&mut self.random);
            self.add(start, words);
        }
        let mut start = self.start(ALL_FEATURES);
        start.pc = 0u64.wrapping_sub(4 * 100);
        let words = self.words(most);
        self.add(start, words);
        // One word again and again.
        for row in Row::ALL {
            let start = self.start(ALL_FEATURES);
            let word = matching_word(&mut self.random, row);
            self.add(start, vec![word; 12]);
        }
    }

    /// Noted PCs, the wrap at each word of a stretch, and a word refused just
    /// before it and just after.
    fn every_pc(&mut self) {
        for pc in PCS_OF_NOTE {
            let length = 1 + self.random.below(5) as usize;
            self.at_pc(pc, length, None);
        }
        for before in 0..=6 {
            let pc = 0u64.wrapping_sub(4 * before);
            self.at_pc(pc, 6, None);
        }
        for refused in 0..4 {
            self.at_pc(0xffff_ffff_ffff_fff8, 4, Some(refused));
        }
    }

    fn at_pc(&mut self, pc: u64, length: usize, refused: Option<usize>) {
        let mut start = self.start(ALL_FEATURES);
        start.pc = pc;
        let mut words = self.words(length);
        if let Some(place) = refused {
            words[place] = near_miss(&mut self.random);
        }
        self.add(start, words);
    }

    /// With no words, and with some.
    fn every_feature_number(&mut self) {
        for features in (0..=ALL_FEATURES).chain(FEATURES_ABOVE) {
            for length in [0, 3] {
                let start = self.start(features);
                let words = self.words(length);
                self.add(start, words);
            }
        }
    }

    fn lengths_not_allowed(&mut self) {
        for vl in LENGTHS_NOT_ALLOWED {
            for length in [0, 3] {
                let mut start = self.start(ALL_FEATURES);
                start.setting.vl = vl;
                let words = self.words(length);
                self.add(start, words);
            }
        }
    }

    /// Each file one byte short, one long, and empty, whether there are words
    /// or not and whatever they touch; then all at once.
    fn wrong_files(&mut self) {
        for (file, right) in [(0, 8192), (1, 512), (2, 64)] {
            for length in [right - 1, right + 1, 0] {
                let choices = [&Row::ALL[..], &[Row::Pext1], &[Row::Narrow], &[]];
                for rows in choices {
                    let mut start = self.start(ALL_FEATURES);
                    start.set_length(file, length);
                    let words = stretch_of(&mut self.random, rows, 3);
                    self.add(start, words);
                }
            }
        }
        for lengths in [[8191, 513, 65], [0, 0, 0]] {
            for count in [0, 2] {
                let mut start = self.start(ALL_FEATURES);
                for (file, length) in lengths.into_iter().enumerate() {
                    start.set_length(file, length);
                }
                let words = self.words(count);
                self.add(start, words);
            }
        }
    }

    /// Every set of a setting that is not allowed, a file of a wrong length, a
    /// stretch too long and a first word that cannot be read, so that the
    /// order 1, 2, 8, 3 shows.
    fn competing_refusals(&mut self) {
        for reasons in 0..16 {
            let mut start = self.start(ALL_FEATURES);
            if reasons & 1 != 0 {
                if self.random.coin() {
                    start.setting.vl = self.random.pick(&LENGTHS_NOT_ALLOWED);
                } else {
                    start.setting.features = self.random.pick(&FEATURES_ABOVE);
                }
            }
            if reasons & 2 != 0 {
                let file = self.random.below(3) as usize;
                let length = self.random.below(64);
                start.set_length(file, length);
            }
            let length = if reasons & 4 != 0 {
                LONGEST_STRETCH + 1
            } else {
                3
            };
            let mut words = self.words(length);
            if reasons & 8 != 0 {
                words[0] = near_miss(&mut self.random);
            }
            self.add(start, words);
        }
    }

    /// PSEL before and after a narrowing word, under the feature numbers it
    /// hangs on, with only V open and with only V closed.
    fn psel(&mut self) {
        for features in FEATURES_FOR_PSEL {
            for number in [1, 6] {
                for rows in [[Row::Psel, Row::Narrow], [Row::Narrow, Row::Psel]] {
                    let mut start = self.start(features);
                    start.flags = Flags::from_number(number).expect("three bits");
                    let words = rows.map(|row| matching_word(&mut self.random, row));
                    self.add(start, words.to_vec());
                }
            }
        }
    }
}

/// The number a word of this row is answered with, everything else being in
/// order.
fn number_for(row: Row, setting: Setting, flags: Flags) -> u32 {
    if !has_features(row, setting) {
        return Refusal::Undefined.number();
    }
    number_of(&check(row.form(), setting, flags))
}

fn accepted_rows(setting: Setting, flags: Flags) -> Vec<Row> {
    Row::ALL
        .into_iter()
        .filter(|&row| number_for(row, setting, flags) == 0)
        .collect()
}

/// The features and flags under which the row is refused with the number and
/// some other row is accepted.
fn circumstances_for(row: Row, number: u32) -> Vec<(u32, Flags)> {
    let mut found = Vec::new();
    for features in (0..=ALL_FEATURES).filter(|&n| features_are_allowed(n)) {
        for flags in (0..8).filter_map(Flags::from_number) {
            let setting = Setting { vl: 128, features };
            if number_for(row, setting, flags) == number
                && !accepted_rows(setting, flags).is_empty()
            {
                found.push((features, flags));
            }
        }
    }
    found
}

#[cfg(test)]
mod tests {
    use super::*;
    use crate::once::check_list;

    #[test]
    fn about_a_thousand_and_a_half() {
        check_list(generate, 1300..=1900);
    }
}
