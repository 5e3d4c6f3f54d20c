//! Decode and encode against each other, over all words of every layout.

use std::collections::HashSet;

use reference::decode::decode;
use reference::encode::{encode, in_range};
use reference::instruction::{Form, Instruction};
use reference::layout::{Row, layout_of};
use reference::random::Random;
use reference::refusal::Refusal;
use reference::samples::{fields_in_range, spread};
use reference::setting::FULL;

/// How many words each row has: the product of its fields' values.
fn word_count(row: Row) -> usize {
    match row {
        Row::Pext1 => 4 * 4 * 8 * 16,
        Row::Pext2 => 4 * 2 * 8 * 16,
        Row::Psel => (16 + 8 + 4 + 2) * 4 * 16 * 16 * 16,
        Row::Luti4c => 2 * 2 * 32 * 8,
        Row::Luti4s => 2 * 32 * 8,
        Row::Narrow => 16 * (8 + 16 + 32) * 32 * 32,
    }
}

/// Every word with the row's fixed bits: each is refused or comes back from
/// encode as it was, no two as one instruction, and as many as there must be.
#[test]
fn every_word_of_every_layout() {
    for row in Row::ALL {
        let layout = layout_of(row);
        let free = !layout.mask;
        let mut instructions = HashSet::new();
        for value in 0..1 << free.count_ones() {
            let word = layout.value | spread(value, free);
            match decode(FULL, word) {
                Ok(instruction) => {
                    assert_eq!(instruction.row(), row);
                    assert!(in_range(instruction));
                    assert_eq!(encode(FULL, instruction), Ok(word), "{word:08x}");
                    assert!(instructions.insert(instruction));
                }
                Err(refusal) => assert_eq!(refusal, Refusal::Undefined),
            }
        }
        assert_eq!(instructions.len(), word_count(row), "{row:?}");
    }
}

/// All words by a stride that is odd, so that every low part comes up.
#[test]
fn words_by_stride() {
    let mut word = 0u32;
    loop {
        if let Ok(instruction) = decode(FULL, word) {
            assert_eq!(encode(FULL, instruction), Ok(word), "{word:08x}");
        }
        match word.checked_add(1021) {
            Some(next) => word = next,
            None => break,
        }
    }
}

#[test]
fn fields_come_back() {
    let mut random = Random::new(2024);
    for _ in 0..20_000 {
        for row in Row::ALL {
            let fields = fields_in_range(&mut random, row);
            let instruction = Instruction::from_fields(row.form(), fields);
            let word = encode(FULL, instruction).unwrap();
            assert_eq!(decode(FULL, word), Ok(instruction));
        }
    }
}

/// Small and wild fields: encode never panics, and what it accepts decodes to
/// just these fields. The number accepted is that of the row's words, so
/// nothing is refused that should not be.
#[test]
fn all_small_fields() {
    for row in [Row::Luti4c, Row::Luti4s] {
        let mut accepted = 0;
        for size in 0..=65 {
            for second in 0..=33 {
                for third in 0..=33 {
                    for fourth in 0..=33 {
                        let fields = [size, second, third, fourth, 0, 0];
                        let instruction = Instruction::from_fields(row.form(), fields);
                        if let Ok(word) = encode(FULL, instruction) {
                            assert_eq!(decode(FULL, word), Ok(instruction));
                            accepted += 1;
                        }
                    }
                }
            }
        }
        assert_eq!(accepted, word_count(row), "{row:?}");
    }
}

#[test]
fn all_small_fields_of_pext() {
    let mut accepted = 0;
    for size in 0..=65 {
        for first in 0..=9 {
            for portions in 0..=9 {
                for counter in 0..=17 {
                    for pd in 0..=17 {
                        let fields = [size, first, portions, counter, pd, 0];
                        let instruction = Instruction::from_fields(Form::Pext, fields);
                        if let Ok(word) = encode(FULL, instruction) {
                            assert_eq!(decode(FULL, word), Ok(instruction));
                            accepted += 1;
                        }
                    }
                }
            }
        }
    }
    assert_eq!(accepted, word_count(Row::Pext1) + word_count(Row::Pext2));
}

#[test]
fn all_small_fields_of_the_family() {
    let mut accepted = 0;
    for bits in 0..=17 {
        for size in 0..=65 {
            for shift in 0..=33 {
                for zn in 0..=33 {
                    // The last two fields are walked on the diagonal and a
                    // parallel to it.
                    for zd in [zn, (zn + 5) % 34] {
                        let fields = [bits, size, shift, zn, zd, 0];
                        let instruction = Instruction::from_fields(Form::Narrow, fields);
                        if let Ok(word) = encode(FULL, instruction) {
                            assert_eq!(decode(FULL, word), Ok(instruction));
                            accepted += 1;
                        }
                    }
                }
            }
        }
    }
    // On the parallel zn 27 and 28 give 32 and 33, which leaves 30.
    assert_eq!(accepted, 16 * (8 + 16 + 32) * (32 + 30));
}

#[test]
fn all_small_fields_of_psel() {
    let mut accepted = 0;
    for size in 0..=65 {
        for offset in 0..=17 {
            for index in 10..=17 {
                for pn in 0..=17 {
                    // The last two fields are walked on the diagonal and its
                    // neighbours, to keep the count small.
                    for pm in 0..=17 {
                        for pd in [pm, (pm + 5) % 18] {
                            let fields = [size, offset, index, pn, pm, pd];
                            let instruction = Instruction::from_fields(Form::Psel, fields);
                            if let Ok(word) = encode(FULL, instruction) {
                                assert_eq!(decode(FULL, word), Ok(instruction));
                                accepted += 1;
                            }
                        }
                    }
                }
            }
        }
    }
    // pm 0..=15 with pd = pm is 16 pairs; with pd = pm + 5 mod 18, pm 11 and
    // 12 give 16 and 17, which leaves 14.
    assert_eq!(accepted, (16 + 8 + 4 + 2) * 4 * 16 * (16 + 14));
}

#[test]
fn wild_fields_are_refused_and_nothing_panics() {
    let wild = [
        1 << 31,
        u32::MAX,
        u32::MAX - 7,
        65536 + 8,
        256 + 8,
        256 + 16,
    ];
    let mut random = Random::new(9);
    for row in Row::ALL {
        for _ in 0..2000 {
            let mut fields = fields_in_range(&mut random, row);
            for field in fields.iter_mut().take(row.form().field_count()) {
                if random.coin() {
                    *field = random.pick(&wild);
                }
            }
            let instruction = Instruction::from_fields(row.form(), fields);
            let is_wild = fields.iter().any(|field| wild.contains(field));
            match encode(FULL, instruction) {
                Ok(_) => assert!(!is_wild),
                Err(refusal) => {
                    assert!(is_wild);
                    assert_eq!(refusal, Refusal::Range);
                }
            }
        }
    }
}
