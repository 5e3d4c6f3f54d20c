//! Whether the questions ask what document 02, request 8, is about, for
//! several seeds. What is expected is told here by hand.

use std::collections::HashSet;

use reference::instruction::Form;
use reference::question::Question;
use reference::questions::{FEATURES_ABOVE, LENGTHS_NOT_ALLOWED, generate};
use reference::setting::Setting;

const SEEDS: [u64; 3] = [1, 77, u64::MAX];

const ALLOWED: [u32; 12] = [0, 1, 3, 4, 5, 7, 12, 13, 15, 28, 29, 31];

/// The setting, the fields and the number of each question about writing PEXT.
fn written(seed: u64) -> Vec<(Setting, [u32; 6], u32)> {
    generate(seed)
        .iter()
        .filter_map(|question| match *question {
            Question::Encode {
                setting,
                form: Form::Pext,
                fields,
            } => Some((setting, fields, question.answer()[0])),
            _ => None,
        })
        .collect()
}

/// Whether writing can be done with these two, whatever the others are.
fn portions_allowed(first: u32, portions: u32) -> bool {
    let all: [(u32, u32); 6] = [(0, 1), (1, 1), (2, 1), (3, 1), (0, 2), (2, 2)];
    all.contains(&(first, portions))
}

/// Whether the others are in range.
fn others_allowed([size, _, _, counter, pd, _]: [u32; 6]) -> bool {
    [8, 16, 32, 64].contains(&size) && (8..=15).contains(&counter) && pd <= 15
}

/// Every answer, told again from the fields and the setting.
#[test]
fn numbers_in_the_order_1_9_3() {
    for seed in SEEDS {
        let mut counts = [0; 4];
        for (setting, fields, number) in written(seed) {
            let [_, first, portions, ..] = fields;
            let vl_allowed = [128, 256, 512, 1024, 2048].contains(&setting.vl);
            let (place, expected) = if !vl_allowed || !ALLOWED.contains(&setting.features) {
                (0, 1)
            } else if !portions_allowed(first, portions) || !others_allowed(fields) {
                (1, 9)
            } else if [0, 1, 4, 5].contains(&setting.features) {
                (2, 3)
            } else {
                (3, 0)
            };
            assert_eq!(number, expected, "{setting:?} {fields:?}");
            counts[place] += 1;
        }
        assert!(counts.iter().all(|&count| count >= 24), "{counts:?}");
    }
}

/// Each size with first portions and numbers of portions, small and great,
/// while everything else is in order.
#[test]
fn every_first_portion_and_number() {
    let great = [
        256,
        258,
        65538,
        1 << 31,
        (1 << 31) + 2,
        u32::MAX - 1,
        u32::MAX,
    ];
    let great_numbers = [
        257,
        258,
        65537,
        65538,
        (1 << 31) + 1,
        (1 << 31) + 2,
        u32::MAX,
    ];
    for seed in SEEDS {
        let asked: HashSet<[u32; 3]> = written(seed)
            .into_iter()
            .filter(|&(setting, fields, _)| {
                setting.features == 31 && setting.is_allowed() && others_allowed(fields)
            })
            .map(|(_, fields, _)| [fields[0], fields[1], fields[2]])
            .collect();
        for size in [8, 16, 32, 64] {
            for first in (0..=5).chain(great) {
                for portions in (0..=4).chain(great_numbers) {
                    let list = [size, first, portions];
                    assert!(asked.contains(&list), "{list:?}");
                }
            }
        }
    }
}

/// Every counter register with every Pd and the numbers next to both, for one
/// portion and for two.
#[test]
fn every_counter_and_destination() {
    for seed in SEEDS {
        let asked: HashSet<([u32; 3], u32)> = written(seed)
            .into_iter()
            .filter(|&(setting, fields, _)| {
                setting.features == 31
                    && portions_allowed(fields[1], fields[2])
                    && [8, 16, 32, 64].contains(&fields[0])
            })
            .map(|(_, fields, number)| ([fields[2], fields[3], fields[4]], number))
            .collect();
        for portions in [1, 2] {
            for counter in 7..=16 {
                for pd in (0..=16).chain([u32::MAX]) {
                    let inside = (8..=15).contains(&counter) && pd <= 15;
                    let number = if inside { 0 } else { 9 };
                    assert!(asked.contains(&([portions, counter, pd], number)));
                }
            }
        }
    }
}

/// All small portions under every allowed feature number, and in and out of
/// range under every setting that is not allowed.
#[test]
fn every_setting() {
    for seed in SEEDS {
        let written = written(seed);
        let asked: HashSet<(u32, u32, u32)> = written
            .iter()
            .filter(|(setting, fields, _)| setting.is_allowed() && others_allowed(*fields))
            .map(|(setting, fields, _)| (setting.features, fields[1], fields[2]))
            .collect();
        for features in ALLOWED {
            for first in 0..=5 {
                for portions in 0..=4 {
                    assert!(asked.contains(&(features, first, portions)));
                }
            }
        }
        let refused = |here: &dyn Fn(Setting) -> bool| {
            for portions in [(3, 1), (2, 2), (0, 3), (4, 1), (1, 2)] {
                let found = written.iter().any(|&(setting, fields, number)| {
                    here(setting)
                        && number == 1
                        && others_allowed(fields)
                        && (fields[1], fields[2]) == portions
                });
                assert!(found, "{portions:?}");
            }
        };
        for features in (0..32).chain(FEATURES_ABOVE) {
            if !ALLOWED.contains(&features) {
                refused(&|setting| setting.features == features);
            }
        }
        for vl in LENGTHS_NOT_ALLOWED {
            refused(&|setting| setting.vl == vl);
        }
    }
}

/// Words of both layouts, by what they are read as: every size and every
/// portions with every counter and with every Pd, and under every feature
/// number.
#[test]
fn every_field_of_the_words() {
    for seed in SEEDS {
        let mut counters = HashSet::new();
        let mut destinations = HashSet::new();
        let mut under = HashSet::new();
        for question in generate(seed) {
            let Question::Decode { setting, word } = question else {
                continue;
            };
            let bits = word >> 8 & 7;
            if word & 0xff3f_f810 != 0x2520_7010 || bits > 5 {
                continue;
            }
            let vl_allowed = [128, 256, 512, 1024, 2048].contains(&setting.vl);
            if vl_allowed {
                under.insert((setting.features, bits));
            }
            let [number, form, fields @ ..] = question.answer();
            if number != 0 {
                continue;
            }
            let (first, portions) = match bits {
                0..=3 => (bits, 1),
                _ => (2 * (bits - 4), 2),
            };
            let size = 8 << (word >> 22 & 3);
            let (counter, pd) = (8 + (word >> 5 & 7), word & 15);
            assert_eq!(form, 8);
            assert_eq!(fields, [size, first, portions, counter, pd, 0]);
            counters.insert((size, bits, counter));
            destinations.insert((size, bits, pd));
        }
        assert_eq!(counters.len(), 4 * 6 * 8);
        assert_eq!(destinations.len(), 4 * 6 * 16);
        for features in (0..32).chain(FEATURES_ABOVE) {
            assert!((0..6).all(|bits| under.contains(&(features, bits))));
        }
    }
}
