//! PEXT of one or two portions (document 02, request 8): reading and writing
//! undo each other, what is refused, what is written where.

use std::collections::HashSet;

use reference::decode::decode;
use reference::encode::encode;
use reference::instruction::Instruction;
use reference::layout::Row;
use reference::lister::name;
use reference::machine::Machine;
use reference::random::Random;
use reference::refusal::Refusal;
use reference::setting::{ALL_FEATURES, FULL, Setting, VECTOR_LENGTHS};
use reference::step::step;
use reference::stretches::any_machine;
use reference::touch::{Register, touch};
use reference::values::{FEATURES_ABOVE, LENGTHS_NOT_ALLOWED};

/// The feature numbers that are allowed, and whether SME2 or SVE2p1 is there.
const ALLOWED: [(u32, bool); 12] = [
    (0, false),
    (1, false),
    (3, true),
    (4, false),
    (5, false),
    (7, true),
    (12, true),
    (13, true),
    (15, true),
    (28, true),
    (29, true),
    (31, true),
];

/// Every first portion with every number of portions that there is, and bits
/// 10 to 8 of the word.
const PORTIONS: [(u32, u32, u32); 6] = [
    (0, 1, 0b000),
    (1, 1, 0b001),
    (2, 1, 0b010),
    (3, 1, 0b011),
    (0, 2, 0b100),
    (2, 2, 0b101),
];

/// Every PEXT word with its instruction.
fn all() -> Vec<(u32, Instruction)> {
    let mut all = Vec::new();
    for (first, portions, bits) in PORTIONS {
        for size in 0..4 {
            for pnn in 0..8 {
                for pd in 0..16 {
                    let word = 0x2520_7010 | size << 22 | bits << 8 | pnn << 5 | pd;
                    let instruction = Instruction::Pext {
                        size: [8, 16, 32, 64][size as usize],
                        first,
                        portions,
                        counter: 8 + pnn,
                        pd,
                    };
                    all.push((word, instruction));
                }
            }
        }
    }
    all
}

fn settings() -> Vec<Setting> {
    let mut settings = Vec::new();
    for vl in VECTOR_LENGTHS.into_iter().chain(LENGTHS_NOT_ALLOWED) {
        for features in (0..=ALL_FEATURES).chain(FEATURES_ABOVE) {
            settings.push(Setting { vl, features });
        }
    }
    settings
}

/// Every word and every list in range, under every setting.
#[test]
fn reading_and_writing_undo_each_other() {
    let all = all();
    assert_eq!(all.len(), 4 * (4 + 2) * 8 * 16);
    for setting in settings() {
        let allowed = ALLOWED.iter().find(|&&(n, _)| n == setting.features);
        let refusal = match allowed {
            Some(&(_, defined)) if VECTOR_LENGTHS.contains(&setting.vl) => {
                (!defined).then_some(Refusal::Undefined)
            }
            _ => Some(Refusal::Setting),
        };
        for &(word, instruction) in &all {
            let (read, written) = (decode(setting, word), encode(setting, instruction));
            match refusal {
                None => assert_eq!((read, written), (Ok(instruction), Ok(word))),
                Some(refusal) => assert_eq!((read, written), (Err(refusal), Err(refusal))),
            }
        }
    }
}

/// The layouts are two, and no other word of bits 10 to 8 is one.
#[test]
fn rows_and_names() {
    for (word, instruction) in all() {
        let (row, listed) = match word >> 10 & 1 {
            0 => (Row::Pext1, "PEXT1"),
            _ => (Row::Pext2, "PEXT2"),
        };
        assert_eq!(instruction.row(), row);
        assert_eq!((instruction.name(), name(word)), (listed, listed));
        let neither = word | 0b110 << 8;
        assert_eq!(decode(FULL, neither), Err(Refusal::Undefined));
    }
}

/// The three new refusals, each with everything else in range: 9 wherever the
/// setting is allowed, with the feature and without; else 1.
#[test]
fn portions_that_are_refused() {
    let numbers = [
        0,
        3,
        4,
        255,
        256,
        257,
        258,
        65537,
        65538,
        (1 << 31) + 1,
        (1 << 31) + 2,
        u32::MAX - 1,
        u32::MAX,
    ];
    let above = [
        4,
        5,
        6,
        7,
        256,
        258,
        65538,
        1 << 31,
        (1 << 31) + 2,
        u32::MAX - 1,
        u32::MAX,
    ];
    let mut refused = HashSet::new();
    for portions in numbers {
        refused.extend([0, 1, 2, 3].map(|first| (first, portions)));
    }
    for first in above {
        refused.extend([(first, 1), (first, 2)]);
    }
    refused.extend([(1, 2), (3, 2)]);
    for (first, portions) in refused {
        let pext = Instruction::Pext {
            size: 8,
            first,
            portions,
            counter: 8,
            pd: 0,
        };
        for setting in settings() {
            let refusal = if setting.is_allowed() {
                Refusal::Range
            } else {
                Refusal::Setting
            };
            assert_eq!(encode(setting, pext), Err(refusal), "{pext:?}");
        }
    }
}

#[test]
fn what_is_touched() {
    for (word, instruction) in all() {
        let pd = word & 15;
        let mut written = vec![Register::P(pd)];
        if word >> 10 & 1 == 1 {
            written.push(Register::P(if pd == 15 { 0 } else { pd + 1 }));
        }
        let touched = touch(instruction);
        assert_eq!(touched.reads, [Register::P(8 + (word >> 5 & 7))]);
        assert_eq!(touched.writes, written);
    }
}

/// Two portions are two words of one portion, each on the machine of before,
/// also where the first writes the counter register.
#[test]
fn two_portions_are_one_and_one() {
    let mut random = Random::new(8);
    for (word, instruction) in all() {
        let Instruction::Pext {
            size,
            first,
            portions: 2,
            counter,
            pd,
        } = instruction
        else {
            continue;
        };
        let vl = random.pick(&VECTOR_LENGTHS);
        let setting = Setting {
            vl,
            features: ALL_FEATURES,
        };
        let before = any_machine(&mut random);
        let mut after = before.clone();
        step(setting, word, &mut after).unwrap();
        let mut expected = before.clone();
        expected.pc = before.pc.wrapping_add(4);
        for k in 0..2 {
            let pd = (pd + k) % 16;
            let single = Instruction::Pext {
                size,
                first: first + k,
                portions: 1,
                counter,
                pd,
            };
            let mut alone = before.clone();
            step(setting, encode(setting, single).unwrap(), &mut alone).unwrap();
            let slot = 32 * pd as usize;
            expected.p[slot..slot + 32].copy_from_slice(&alone.p[slot..slot + 32]);
        }
        assert_eq!(after, expected, "{word:08x} at {vl}");
    }
}

/// By hand at VL 128: counter 8021 inverts its count of sixteen, so portion 0
/// is false and the others true; counter 0007 has three elements true.
#[test]
fn portions_by_hand() {
    // size B, counter P15, destinations P15 and P0: the counter is overwritten
    let pext = |first, portions| Instruction::Pext {
        size: 8,
        first,
        portions,
        counter: 15,
        pd: 15,
    };
    for (counter, first, portions, [p15, p0]) in [
        (0x8021u16, 0, 1, [0x0000, 0x5555]),
        (0x8021, 1, 1, [0xffff, 0x5555]),
        (0x8021, 0, 2, [0x0000, 0xffff]),
        (0x8021, 2, 2, [0xffff, 0xffff]),
        (0x0007, 0, 2, [0x0007, 0x0000]),
        (0x0007, 2, 2, [0x0000, 0x0000]),
        // forty elements: all of portions 0 and 1, half of 2, none of 3
        (0x0051, 0, 2, [0xffff, 0xffff]),
        (0x0051, 2, 2, [0x00ff, 0x0000]),
    ] {
        let mut machine: Machine = any_machine(&mut Random::new(3));
        machine.p[480..482].copy_from_slice(&counter.to_le_bytes());
        machine.p[0..2].copy_from_slice(&0x5555u16.to_le_bytes());
        let word = encode(FULL, pext(first, portions)).unwrap();
        step(FULL, word, &mut machine).unwrap();
        let low = |slot: usize| u16::from_le_bytes([machine.p[slot], machine.p[slot + 1]]);
        assert_eq!([low(480), low(0)], [p15, p0], "{counter:04x} {first}");
    }
}
