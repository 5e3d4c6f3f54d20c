//! Steps against the reference: its questions, all counters, and any words on
//! any machines.

use super::{any_flags, same_step};
use reference::encode::encode;
use reference::instruction::Instruction;
use reference::layout::Row;
use reference::machine::Machine;
use reference::random::Random;
use reference::samples::{listing_words, matching_word};
use reference::setting::{ALL_FEATURES, FULL, Setting, VECTOR_LENGTHS};
use reference::step_questions;
use reference::stretches::{any_machine, any_setting};

#[test]
fn step_questions_of_three_seeds() {
    // A step answers 0 to 6; there is no place here for another number.
    let mut counts = [0; 7];
    for seed in [1, 2, 3] {
        for question in step_questions::generate(seed) {
            let mut machine = question.start.machine();
            let number = same_step(question.start.setting, question.word, &mut machine);
            counts[number as usize] += 1;
        }
    }
    assert!(counts.iter().all(|&count| count > 0), "{counts:?}");
}

/// Words on one machine that goes on, so that each finds what others left;
/// now and then it is filled anew.
#[test]
fn any_words_in_a_row() {
    let mut random = Random::new(31);
    let mut machine = any_machine(&mut random);
    let mut done = 0;
    for word in listing_words(32, 20_000) {
        if random.below(20) == 0 {
            machine = any_machine(&mut random);
        }
        let setting = any_setting(&mut random);
        machine.flags = any_flags(&mut random);
        machine.w[random.below(4) as usize] = random.next_u32();
        done += u32::from(same_step(setting, word, &mut machine) == 0);
    }
    assert!(done > 4000, "{done}");
}

/// The same with words that are all defined, under all features and open.
#[test]
fn defined_words_at_every_length() {
    let mut random = Random::new(33);
    for row in Row::ALL {
        for vl in VECTOR_LENGTHS {
            let features = ALL_FEATURES;
            for _ in 0..400 {
                let mut machine = any_machine(&mut random);
                let word = matching_word(&mut random, row);
                let number = same_step(Setting { vl, features }, word, &mut machine);
                assert_eq!(number, 0);
            }
        }
    }
}

/// Every counter there is, each at any length, size and portions, and from a
/// register with anything above it.
#[test]
fn every_counter() {
    let mut random = Random::new(34);
    let mut machine = any_machine(&mut random);
    for counter in 0..=u16::MAX {
        machine.p[8 * 32..8 * 32 + 2].copy_from_slice(&counter.to_le_bytes());
        let vl = random.pick(&VECTOR_LENGTHS);
        let size = random.pick(&[8, 16, 32, 64]);
        let (first, portions) = random.pick(&[(0, 1), (1, 1), (2, 1), (3, 1), (0, 2), (2, 2)]);
        let pext = Instruction::Pext {
            size,
            first,
            portions,
            counter: 8,
            pd: random.below(7),
        };
        let word = encode(FULL, pext).unwrap();
        let features = ALL_FEATURES;
        assert_eq!(same_step(Setting { vl, features }, word, &mut machine), 0);
    }
}

/// Registers that are written and read by the same word, at every length.
#[test]
fn destinations_that_are_sources() {
    let mut random = Random::new(35);
    for vl in VECTOR_LENGTHS {
        let features = ALL_FEATURES;
        for _ in 0..200 {
            let p = random.below(16);
            let z = random.below(32);
            let psel = matching_word(&mut random, Row::Psel);
            let lookup = matching_word(&mut random, Row::Luti4c);
            let strided = matching_word(&mut random, Row::Luti4s);
            let narrow = matching_word(&mut random, Row::Narrow);
            let pext = random.pick(&[Row::Pext1, Row::Pext2]);
            let pext = matching_word(&mut random, pext);
            for word in [
                psel & !0x3c0f | p << 10 | p,
                psel & !0x1ef | p << 5 | p,
                psel & !0x3def | p << 10 | p << 5 | p,
                lookup & !0x3fc | z << 5 | z & 28,
                strided & !0x3f3 | z << 5 | z & 19,
                narrow & !0x3ff | z << 5 | z,
                // PNn is one of the upper eight.
                pext & !0xef | (p & 7) << 5 | (p | 8),
                pext & !0xef | (p & 7) << 5 | ((p | 8) - 1),
            ] {
                let mut machine = any_machine(&mut random);
                assert_eq!(same_step(Setting { vl, features }, word, &mut machine), 0);
            }
        }
    }
}

/// Files of other lengths, with any words.
#[test]
fn damaged_lengths() {
    let mut random = Random::new(36);
    let mut counts = [0; 10];
    for word in listing_words(37, 2_000) {
        let setting = any_setting(&mut random);
        let mut machine = any_machine(&mut random);
        let file = match random.below(3) {
            0 => &mut machine.z,
            1 => &mut machine.p,
            _ => &mut machine.zt0,
        };
        // A byte or more off, or whole registers; now and then not at all.
        let step = random.pick(&[0, 1, 4, 32, 64, 256]);
        let length = if random.coin() {
            file.len() + step
        } else {
            file.len().saturating_sub(step)
        };
        file.resize(length, 0x5a);
        counts[same_step(setting, word, &mut machine) as usize] += 1;
    }
    assert!(counts[0] > 0 && counts[2] > 0, "{counts:?}");
}

/// Every setting from a range that holds all allowed ones.
#[test]
fn every_setting() {
    for features in (0..300).chain([65567, 1 << 31, u32::MAX]) {
        for vl in [0, 64, 127, 128, 192, 256, 512, 1024, 2048, 4096, 65664] {
            for word in [
                0x2520_7010,
                0x25e0_4000,
                0xc09a_9000,
                0x4528_3800,
                0x4528_2c00,
                0,
            ] {
                same_step(Setting { vl, features }, word, &mut Machine::zero());
            }
        }
    }
}
