//! The list of questions about permission put to both programs (kind 10).
//!
//! First every stretch of `cases` in its own order and in each of its
//! rearrangements. Then orders that are no rearrangement, stretches too long,
//! words that cannot be read and settings that are not allowed.

use crate::cases;
use crate::layout::{Row, has_features};
use crate::once::Once;
use crate::permission_question::PermissionQuestion;
use crate::random::Random;
use crate::run::LONGEST_STRETCH;
use crate::samples::{matching_word, narrow_word, near_miss};
use crate::setting::{ALL_FEATURES, Setting, VECTOR_LENGTHS, features_are_allowed};
use crate::stretches::stretch_of;
use crate::values::{FEATURES_ABOVE, LENGTHS_NOT_ALLOWED};

pub fn generate(seed: u64) -> Vec<PermissionQuestion> {
    let mut random = Random::new(seed);
    let cases = cases::generate(&mut random);
    let mut list = List {
        questions: Once::new(),
        random,
    };
    for case in &cases {
        let setting = case.start.setting;
        list.add(setting, &case.words, in_order(case.words.len()));
        for order in case.orders() {
            let order = order.iter().map(|&position| position as u32).collect();
            list.add(setting, &case.words, order);
        }
    }
    list.nothing();
    list.no_rearrangements();
    list.around_the_most();
    list.undefined_words();
    list.missing_features();
    list.settings_not_allowed();
    list.competing_refusals();
    list.questions.into_list()
}

/// 0, 1, 2 and so on.
fn in_order(count: usize) -> Vec<u32> {
    (0..count as u32).collect()
}

struct List {
    questions: Once<PermissionQuestion>,
    random: Random,
}

impl List {
    fn add(&mut self, setting: Setting, words: &[u32], order: Vec<u32>) {
        self.questions.add(PermissionQuestion {
            setting,
            words: words.to_vec(),
            order,
        });
    }

    fn all_features(&mut self) -> Setting {
        self.any_length(ALL_FEATURES)
    }

    fn any_length(&mut self, features: u32) -> Setting {
        let vl = self.random.pick(&VECTOR_LENGTHS);
        Setting { vl, features }
    }

    /// Words that are defined under all features.
    fn words(&mut self, length: usize) -> Vec<u32> {
        stretch_of(&mut self.random, &Row::ALL, length)
    }

    /// No words and no order at all lengths, and no words with an order.
    fn nothing(&mut self) {
        for vl in VECTOR_LENGTHS {
            let features = ALL_FEATURES;
            self.add(Setting { vl, features }, &[], Vec::new());
        }
        for order in [&[0][..], &[1], &[0, 0], &[u32::MAX], &[0, 1, 2]] {
            let setting = self.all_features();
            self.add(setting, &[], order.to_vec());
        }
    }

    /// The words in their own order with one thing wrong, for words of which
    /// no two conflict and for any words.
    fn no_rearrangements(&mut self) {
        for length in [1, 2, 3, 8] {
            let free: Vec<u32> = (0..length)
                .map(|zd| narrow_word(self.random.below(16), 8, 30, zd))
                .collect();
            let any = self.words(free.len());
            for words in [free, any] {
                for order in self.wrong_orders(words.len()) {
                    let setting = self.all_features();
                    self.add(setting, &words, order);
                }
            }
        }
    }

    fn wrong_orders(&mut self, count: usize) -> Vec<Vec<u32>> {
        let right = in_order(count);
        let length = count as u32;
        let place = self.random.below(length) as usize;
        let with = |entry: u32| {
            let mut order = right.clone();
            order[place] = entry;
            order
        };
        // One too high, some of them right after a narrowing cast.
        let mut orders: Vec<Vec<u32>> = [
            length,
            length + 1,
            256 + place as u32,
            65536 + place as u32,
            (1 << 31) + place as u32,
            u32::MAX,
        ]
        .map(with)
        .to_vec();
        // One twice and so another not at all.
        if count > 1 {
            orders.push(with(right[(place + 1) % count]));
            orders.push(vec![0; count]);
        }
        // One missing, at the ends and within; all missing.
        for missing in [0, place, count - 1] {
            let mut order = right.clone();
            order.remove(missing);
            orders.push(order);
        }
        orders.push(Vec::new());
        // One more, a new one or one again; all twice.
        for more in [0, length - 1, length, u32::MAX] {
            orders.push([&right[..], &[more]].concat());
        }
        orders.push([&[length], &right[..]].concat());
        orders.push([&right[..], &right[..]].concat());
        orders
    }

    /// As many words as a run takes, and one more, in their own order and in
    /// orders that are one off.
    fn around_the_most(&mut self) {
        let most = LONGEST_STRETCH;
        let setting = self.all_features();
        let words = self.words(most + 1);
        self.add(setting, &words[..most], in_order(most));
        self.add(setting, &words[..most], in_order(most - 1));
        self.add(setting, &words[..most], in_order(most + 1));
        // 256 is 0 after a cast to 8 bits.
        let mut order = in_order(most);
        order[0] = most as u32;
        self.add(setting, &words[..most], order);
        self.add(setting, &words, in_order(most + 1));
        self.add(setting, &words, in_order(most));
        self.add(setting, &words, Vec::new());
    }

    /// A word that cannot be read as the first, a middle one and the last, in
    /// orders of all sorts.
    fn undefined_words(&mut self) {
        for length in [1, 2, 5, 9] {
            for place in [0, length / 2, length - 1] {
                let mut words = self.words(length);
                words[place] = near_miss(&mut self.random);
                let setting = self.all_features();
                self.add(setting, &words, in_order(length));
                self.add(
                    setting,
                    &words,
                    in_order(length).into_iter().rev().collect(),
                );
                self.add(setting, &words, in_order(length - 1));
                self.add(setting, &words, vec![u32::MAX; length]);
            }
        }
    }

    /// Every row among others that are defined where it is not, under every
    /// feature number.
    fn missing_features(&mut self) {
        for features in (0..=ALL_FEATURES).filter(|&n| features_are_allowed(n)) {
            let setting = self.any_length(features);
            self.add(setting, &[], Vec::new());
            let (defined, missing): (Vec<Row>, Vec<Row>) = Row::ALL
                .into_iter()
                .partition(|&row| has_features(row, setting));
            for row in missing {
                let mut words = stretch_of(&mut self.random, &defined, 3);
                let place = self.random.below(words.len() as u32 + 1) as usize;
                words.insert(place, matching_word(&mut self.random, row));
                let order = in_order(words.len());
                self.add(setting, &words, order);
            }
        }
    }

    /// With no words, with some, and with some that cannot be read.
    fn settings_not_allowed(&mut self) {
        for features in (0..=ALL_FEATURES).chain(FEATURES_ABOVE) {
            if !features_are_allowed(features) {
                let setting = self.any_length(features);
                self.under(setting);
            }
        }
        for vl in LENGTHS_NOT_ALLOWED {
            let features = ALL_FEATURES;
            self.under(Setting { vl, features });
        }
    }

    fn under(&mut self, setting: Setting) {
        self.add(setting, &[], Vec::new());
        let mut words = self.words(2);
        self.add(setting, &words, in_order(2));
        words[1] = near_miss(&mut self.random);
        self.add(setting, &words, in_order(2));
    }

    /// Every set of a setting that is not allowed, a stretch too long, a last
    /// word that cannot be read and an order that is none. Document 01 leaves
    /// open how these are answered; `rearrangement` says what is chosen here.
    fn competing_refusals(&mut self) {
        for reasons in 0..16 {
            let mut setting = self.all_features();
            if reasons & 1 != 0 {
                setting.features = self.random.pick(&FEATURES_ABOVE);
            }
            let length = if reasons & 2 != 0 {
                LONGEST_STRETCH + 1
            } else {
                3
            };
            let mut words = self.words(length);
            if reasons & 4 != 0 {
                words[length - 1] = near_miss(&mut self.random);
            }
            // The order that is none is short, so that the line is too.
            let order = if reasons & 8 != 0 {
                vec![0, 0]
            } else {
                in_order(length)
            };
            self.add(setting, &words, order);
        }
    }
}

#[cfg(test)]
mod tests {
    use super::*;
    use crate::once::check_list;

    #[test]
    fn about_a_thousand_and_a_half() {
        check_list(generate, 1300..=1900);
    }
}
