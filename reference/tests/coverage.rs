//! Whether the questions ask what they are meant to ask, for several seeds.

use std::collections::HashSet;

use reference::decode::decode;
use reference::encode::in_range;
use reference::instruction::{Form, Instruction, RETIRED_FORMS};
use reference::layout::{Row, layout_of, row_by_fixed_bits};
use reference::question::Question;
use reference::questions::{FEATURES_ABOVE, LENGTHS_NOT_ALLOWED, PRINTED_WORDS, generate};
use reference::samples::{failing_conditions, field_masks, spread};
use reference::setting::{FULL, Setting, VECTOR_LENGTHS, vl_is_allowed};
use reference::text::{QUESTION_BYTES, question_line, read_question};

const SEEDS: [u64; 3] = [1, 77, u64::MAX];

fn decodes(questions: &[Question]) -> Vec<(Setting, u32)> {
    questions
        .iter()
        .filter_map(|question| match *question {
            Question::Decode { setting, word } => Some((setting, word)),
            _ => None,
        })
        .collect()
}

fn encodes(questions: &[Question]) -> Vec<(Setting, Form, [u32; 6])> {
    questions
        .iter()
        .filter_map(|question| match *question {
            Question::Encode {
                setting,
                form,
                fields,
            } => Some((setting, form, fields)),
            _ => None,
        })
        .collect()
}

/// The row that a list is nearest to: that of its word, where it has one.
fn row_of(form: Form, fields: [u32; 6]) -> Row {
    Instruction::from_fields(form, fields).row()
}

/// Which answer numbers come up for these questions.
fn numbers<'a>(questions: impl Iterator<Item = &'a Question>) -> HashSet<u32> {
    questions.map(|question| question.answer()[0]).collect()
}

#[test]
fn every_feature_number_for_every_row() {
    for seed in SEEDS {
        let questions = generate(seed);
        for features in (0..32).chain(FEATURES_ABOVE) {
            for row in Row::ALL {
                let here =
                    |setting: Setting| setting.features == features && vl_is_allowed(setting.vl);
                let word_asked = decodes(&questions).into_iter().any(|(setting, word)| {
                    here(setting) && decode(FULL, word).map(|i| i.row()) == Ok(row)
                });
                assert!(word_asked, "{features} {row:?}");
                // In range and out of it, told apart by what full features
                // answer.
                let asked: HashSet<u32> = encodes(&questions)
                    .into_iter()
                    .filter(|&(setting, form, fields)| here(setting) && row_of(form, fields) == row)
                    .map(|(_, form, fields)| {
                        let full = Question::Encode {
                            setting: FULL,
                            form,
                            fields,
                        };
                        full.answer()[0]
                    })
                    .collect();
                assert_eq!(asked, HashSet::from([0, 9]), "{features} {row:?}");
            }
        }
    }
}

#[test]
fn every_vector_length_for_every_row() {
    for seed in SEEDS {
        let questions = generate(seed);
        for vl in VECTOR_LENGTHS.into_iter().chain(LENGTHS_NOT_ALLOWED) {
            let setting = Setting { vl, features: 31 };
            let of_words = numbers(
                questions
                    .iter()
                    .filter(|q| q.setting() == setting && matches!(q, Question::Decode { .. })),
            );
            let expected: &[u32] = if vl_is_allowed(vl) { &[0, 3] } else { &[1] };
            assert_eq!(of_words, expected.iter().copied().collect(), "{vl}");
            for row in Row::ALL {
                let asked = encodes(&questions)
                    .into_iter()
                    .any(|(s, form, fields)| s == setting && row_of(form, fields) == row);
                assert!(asked, "{vl} {row:?}");
            }
        }
    }
}

#[test]
fn refusals_compete_in_encode() {
    for seed in SEEDS {
        let questions = generate(seed);
        for row in Row::ALL {
            // A missing feature, with fields in range and not.
            let missing: HashSet<u32> = numbers(questions.iter().filter(|question| {
                matches!(question, Question::Encode { form, fields, .. }
                    if row_of(*form, *fields) == row)
                    && question.setting().features == 0
            }));
            assert_eq!(missing, HashSet::from([3, 9]), "{row:?}");
        }
    }
}

#[test]
fn printed_words_under_full_and_reduced_features() {
    for seed in SEEDS {
        let asked: HashSet<(Setting, u32)> = decodes(&generate(seed)).into_iter().collect();
        for word in PRINTED_WORDS {
            assert!(asked.contains(&(FULL, word)));
            for features in [0, 1, 3, 4, 12, 15, 28] {
                assert!(asked.contains(&(Setting { vl: 128, features }, word)));
            }
        }
    }
}

#[test]
fn every_value_of_every_word_field() {
    for seed in SEEDS {
        let words: Vec<u32> = decodes(&generate(seed)).iter().map(|&(_, w)| w).collect();
        for row in Row::ALL {
            for &mask in field_masks(row) {
                for value in 0..1 << mask.count_ones() {
                    let place = spread(value, mask);
                    let asked = words
                        .iter()
                        .any(|&w| row_by_fixed_bits(w) == Some(row) && w & mask == place);
                    assert!(asked, "{row:?} {mask:08x} {value}");
                }
            }
            let (mask, values) = failing_conditions(row);
            for &value in values {
                let count = words
                    .iter()
                    .filter(|&&w| row_by_fixed_bits(w) == Some(row) && w & mask == value)
                    .count();
                assert!(count >= 5, "{row:?} {value:08x}");
            }
        }
    }
}

#[test]
fn every_bit_of_a_word_of_every_row() {
    for seed in SEEDS {
        let words: HashSet<u32> = decodes(&generate(seed)).iter().map(|&(_, w)| w).collect();
        for row in Row::ALL {
            let found = words.iter().any(|&word| {
                decode(FULL, word).map(|i| i.row()) == Ok(row)
                    && (0..32).all(|bit| words.contains(&(word ^ (1 << bit))))
            });
            assert!(found, "{row:?}");
            // Words with just two fixed bits wrong.
            let layout = layout_of(row);
            let two_wrong = words
                .iter()
                .filter(|&&word| ((word ^ layout.value) & layout.mask).count_ones() == 2)
                .count();
            assert!(two_wrong >= 10, "{row:?}");
        }
    }
}

/// Document 01's ranges, and those of PEXT's portions, by hand: for each field
/// values at the ends of its range and outside it. Each must be asked with everything else in order.
#[test]
fn ends_of_every_field() {
    use Form::*;
    let extremes = [1 << 31, u32::MAX];
    let element_sizes: (&[u32], &[u32]) = (
        &[8, 16, 32, 64],
        &[0, 1, 4, 7, 9, 24, 65, 128, 264, 272, 288, 320, 65544, 65552],
    );
    let predicate: (&[u32], &[u32]) = (&[0, 15], &[16, 17, 256, 65536]);
    let vector: (&[u32], &[u32]) = (&[0, 31], &[32, 33, 256, 65536]);
    let counter: (&[u32], &[u32]) = (&[8, 15], &[0, 7, 16, 264, 65544]);
    let i1: (&[u32], &[u32]) = (&[0, 1], &[2, 256, 257, 65537]);
    // form, place, values in range, values outside, the field its range hangs
    // on, by place and value
    type Range<'a> = (Form, usize, (&'a [u32], &'a [u32]), Option<(usize, u32)>);
    let ranges: Vec<Range> = vec![
        (Pext, 0, element_sizes, None),
        (Pext, 1, (&[0, 1, 2, 3], &[4, 5, 256, 65536]), Some((2, 1))),
        (
            Pext,
            1,
            (&[0, 2], &[1, 3, 4, 5, 6, 256, 65536]),
            Some((2, 2)),
        ),
        (
            Pext,
            2,
            (&[1, 2], &[0, 3, 4, 256, 257, 258, 65537, 65538]),
            None,
        ),
        (Pext, 3, counter, None),
        (Pext, 4, predicate, None),
        (Psel, 0, element_sizes, None),
        (Psel, 1, (&[0, 15], &[16, 17, 256, 65536]), Some((0, 8))),
        (Psel, 1, (&[0, 7], &[8, 9, 256, 65536]), Some((0, 16))),
        (Psel, 1, (&[0, 3], &[4, 5, 256, 65536]), Some((0, 32))),
        (Psel, 1, (&[0, 1], &[2, 3, 256, 65536]), Some((0, 64))),
        (Psel, 2, (&[12, 13, 15], &[0, 11, 16, 268, 65548]), None),
        (Psel, 3, predicate, None),
        (Psel, 4, predicate, None),
        (Psel, 5, predicate, None),
        (Luti4c, 0, (&[16, 32], &[0, 8, 64, 272, 65552]), None),
        (Luti4c, 1, i1, None),
        (Luti4c, 2, vector, None),
        (
            Luti4c,
            3,
            (&[0, 4, 24, 28], &[1, 2, 3, 27, 29, 30, 31, 32]),
            None,
        ),
        (
            Luti4s,
            0,
            (&[16], &[0, 8, 15, 17, 32, 64, 272, 65552]),
            None,
        ),
        (Luti4s, 1, i1, None),
        (Luti4s, 2, vector, None),
        (Luti4s, 3, (&[0, 3, 16, 19], &[4, 15, 20, 31, 32]), None),
        (
            Narrow,
            0,
            (&[0, 1, 7, 8, 15], &[16, 17, 31, 256, 65536]),
            None,
        ),
        (
            Narrow,
            1,
            (&[8, 16, 32], &[0, 4, 7, 9, 64, 264, 65552]),
            None,
        ),
        (Narrow, 2, (&[1, 8], &[0, 9, 16, 264, 65544]), Some((1, 8))),
        (
            Narrow,
            2,
            (&[1, 16], &[0, 17, 32, 272, 65552]),
            Some((1, 16)),
        ),
        (
            Narrow,
            2,
            (&[1, 32], &[0, 33, 64, 288, 65568]),
            Some((1, 32)),
        ),
        (Narrow, 3, vector, None),
        (Narrow, 4, vector, None),
    ];
    for seed in SEEDS {
        let questions = generate(seed);
        for &(form, place, (inside, outside), other) in &ranges {
            let asked = |value: u32| -> HashSet<u32> {
                numbers(questions.iter().filter(|question| {
                    matches!(question, Question::Encode { form: f, fields, setting }
                        if *f == form
                            && fields[place] == value
                            && setting.features == 31
                            && vl_is_allowed(setting.vl)
                            && other.is_none_or(|(place, value)| fields[place] == value))
                }))
            };
            for &value in inside {
                assert!(asked(value).contains(&0), "{form:?} {place} {value}");
            }
            for &value in outside.iter().chain(&extremes) {
                assert_eq!(asked(value), HashSet::from([9]), "{form:?} {place} {value}");
            }
        }
    }
}

/// Each of the sixteen narrowing words at every size and shift, read and
/// written; undefined where it has no size; and its neighbours.
#[test]
fn every_narrowing_word() {
    for seed in SEEDS {
        let questions = generate(seed);
        let mut read = HashSet::new();
        let mut undefined = HashSet::new();
        for (setting, word) in decodes(&questions) {
            let bits = word >> 10 & 15;
            if setting.features != 31 || row_by_fixed_bits(word) != Some(Row::Narrow) {
                continue;
            }
            match decode(setting, word) {
                Ok(found) => {
                    let [b, size, shift, ..] = found.fields();
                    assert_eq!(b, bits);
                    read.insert((bits, size, shift));
                }
                Err(_) => {
                    undefined.insert((bits, vl_is_allowed(setting.vl)));
                }
            }
        }
        assert_eq!(read.len(), 16 * 56);
        assert!((0..16).all(|bits| undefined.contains(&(bits, true))));
        let written: HashSet<[u32; 3]> = encodes(&questions)
            .into_iter()
            .filter(|&(setting, form, _)| {
                form == Form::Narrow && setting.features == 31 && vl_is_allowed(setting.vl)
            })
            .map(|(_, _, fields)| [fields[0], fields[1], fields[2]])
            .collect();
        for bits in 0..16 {
            for size in [8, 16, 32] {
                for shift in 0..=size + 1 {
                    assert!(written.contains(&[bits, size, shift]));
                }
            }
            for size in [0, 64] {
                assert!(written.iter().any(|f| f[..2] == [bits, size]));
            }
        }
        for bits in [16, 31, u32::MAX] {
            assert!(written.iter().any(|fields| fields[0] == bits));
        }
    }
}

/// PSEL under the feature numbers that differ in SVE2p1 and SME, on which it
/// hangs by document 02, request 2: every size and offset read, no size, and
/// every size written.
#[test]
fn psel_under_every_feature_it_hangs_on() {
    for seed in SEEDS {
        let questions = generate(seed);
        for (features, number) in [(1, 3), (3, 0), (4, 0), (5, 0), (7, 0)] {
            let here = |setting: Setting| setting.features == features && vl_is_allowed(setting.vl);
            let mut read = HashSet::new();
            let mut without_size = HashSet::new();
            for (setting, word) in decodes(&questions) {
                if !here(setting) || row_by_fixed_bits(word) != Some(Row::Psel) {
                    continue;
                }
                let answer = Question::Decode { setting, word }.answer();
                match decode(FULL, word) {
                    Ok(found) => {
                        let [size, offset, ..] = found.fields();
                        read.insert((size, offset));
                        assert_eq!(answer[0], number, "{features} {word:08x}");
                    }
                    Err(_) => {
                        without_size.insert(word >> 23 & 1);
                        assert_eq!(answer[0], 3, "{features} {word:08x}");
                    }
                }
            }
            assert_eq!(read.len(), 16 + 8 + 4 + 2);
            assert_eq!(without_size.len(), 2);
            for size in [8, 16, 32, 64] {
                for (offset, number) in [(0, number), (128 / size - 1, number), (128 / size, 9)] {
                    let asked = numbers(questions.iter().filter(|question| {
                        matches!(question, Question::Encode { setting, form, fields }
                            if here(*setting)
                                && *form == Form::Psel
                                && fields[..2] == [size, offset])
                    }));
                    assert!(asked.contains(&number), "{features} {size} {offset}");
                }
            }
        }
    }
}

/// Whether a list of a retired form was a word: of PEXT1, PEXT2 or UQRSHRNB.
fn was_a_word(form: u32, [size, second, third, fourth, fifth, sixth]: [u32; 6]) -> bool {
    let pext = [8, 16, 32, 64].contains(&size) && (8..16).contains(&third) && fourth < 16;
    let uqrshrnb = [8, 16, 32].contains(&size) && third < 32 && fourth < 32;
    let fields = match form {
        0 => pext && second < 4,
        1 => pext && second < 2,
        _ => uqrshrnb && (1..=size).contains(&second),
    };
    fields && [fifth, sixth] == [0, 0]
}

/// Lists of the forms that PEXT1 and PEXT2 had apart and UQRSHRNB alone: 1 or 9
/// and nothing else, also where no word of the form's is defined. Among them
/// are lists that were words, with every immediate, and lists that are PEXT's.
#[test]
fn the_retired_forms() {
    for seed in SEEDS {
        let questions = generate(seed);
        for (retired, old_count) in RETIRED_FORMS.into_iter().zip([16, 8, 56]) {
            let mut answers = HashSet::new();
            let mut old_words = HashSet::new();
            let mut new_words = HashSet::new();
            for question in &questions {
                let &Question::EncodeRetired {
                    setting,
                    form,
                    fields,
                } = question
                else {
                    continue;
                };
                if form != retired {
                    continue;
                }
                let number = if setting.is_allowed() { 9 } else { 1 };
                assert_eq!(question.answer(), [number, 0, 0, 0, 0, 0, 0, 0]);
                let was = was_a_word(form, fields);
                let is = in_range(Instruction::from_fields(Form::Pext, fields));
                let features = setting.features;
                answers.insert((number, was, is, features == 0));
                if features == 31 && number == 9 {
                    let [a, b, c, ..] = fields;
                    old_words.extend(was.then_some((a, b)));
                    new_words.extend(is.then_some((a, b, c)));
                }
            }
            for (was, is) in [(true, false), (false, true)] {
                for (number, no_feature) in [(1, false), (9, false), (9, true)] {
                    let answer = (number, was, is, no_feature);
                    assert!(answers.contains(&answer), "{retired} {answer:?}");
                }
            }
            assert_eq!(old_words.len(), old_count, "{retired}");
            assert_eq!(new_words.len(), 4 * (4 + 2), "{retired}");
        }
    }
}

#[test]
fn questions_survive_the_text() {
    for question in generate(3) {
        let line = question_line(&question);
        let bytes: [u8; QUESTION_BYTES] = line.as_bytes().try_into().unwrap();
        assert_eq!(read_question(&bytes), Ok(question));
    }
}
