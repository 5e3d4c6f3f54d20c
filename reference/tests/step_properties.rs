//! What holds of every step, whatever the word computes.

use reference::decode::decode;
use reference::layout::Row;
use reference::machine::Machine;
use reference::random::Random;
use reference::samples::matching_word;
use reference::setting::{ALL_FEATURES, Setting, VECTOR_LENGTHS};
use reference::step::step;
use reference::step_questions::generate;
use reference::stretches::any_machine;
use reference::touch::{Register, Touch, touch};

/// The bytes a word can touch of a register, as a range of its file.
fn low_bytes(register: Register, vl: u32) -> std::ops::Range<usize> {
    let vl = vl as usize;
    match register {
        Register::Z(k) => 256 * k as usize..256 * k as usize + vl / 8,
        Register::P(k) => 32 * k as usize..32 * k as usize + vl / 64,
        Register::Zt0 => 0..64,
        Register::W(_) => unreachable!("no file"),
    }
}

fn file_of(machine: &mut Machine, register: Register) -> &mut Vec<u8> {
    match register {
        Register::Z(_) => &mut machine.z,
        Register::P(_) => &mut machine.p,
        Register::Zt0 => &mut machine.zt0,
        Register::W(_) => unreachable!("no file"),
    }
}

/// Copies the part of a register that words touch.
fn copy_register(from: &Machine, to: &mut Machine, register: Register, vl: u32) {
    if let Register::W(number) = register {
        let place = number as usize - 12;
        to.w[place] = from.w[place];
        return;
    }
    let part = low_bytes(register, vl);
    let bytes = file_of(&mut from.clone(), register)[part.clone()].to_vec();
    file_of(to, register)[part].copy_from_slice(&bytes);
}

/// Words of every row at every length, each on its own machine.
fn each_word(seed: u64, count: usize, mut check: impl FnMut(Setting, u32, Touch, &mut Random)) {
    let mut random = Random::new(seed);
    for row in Row::ALL {
        for vl in VECTOR_LENGTHS {
            let setting = Setting {
                vl,
                features: ALL_FEATURES,
            };
            for _ in 0..count {
                let word = matching_word(&mut random, row);
                let touched = touch(decode(setting, word).unwrap());
                check(setting, word, touched, &mut random);
            }
        }
    }
}

#[test]
fn a_refused_step_changes_nothing() {
    // A step answers 0 to 6; there is no place here for any other number.
    let mut refused = [0; 7];
    for seed in 1..=3 {
        for question in generate(seed) {
            let before = question.start.machine();
            let mut after = before.clone();
            match step(question.start.setting, question.word, &mut after) {
                Err(refusal) => {
                    assert_eq!(after, before);
                    refused[refusal.number() as usize] += 1;
                }
                Ok(()) => {
                    assert_eq!(after.pc, before.pc.wrapping_add(4));
                    assert_eq!(after.w, before.w);
                    assert_eq!(after.flags, before.flags);
                    assert_eq!(after.zt0, before.zt0);
                }
            }
        }
    }
    assert_eq!(refused[0], 0);
    assert!(refused[1..].iter().all(|&count| count > 0), "{refused:?}");
}

/// Only the low parts of the registers in the table's last column change.
#[test]
fn a_step_writes_only_its_writes() {
    each_word(11, 40, |setting, word, touched, random| {
        let before = any_machine(random);
        let mut after = before.clone();
        step(setting, word, &mut after).unwrap();
        let mut expected = before;
        for &register in &touched.writes {
            copy_register(&after, &mut expected, register, setting.vl);
        }
        expected.pc = expected.pc.wrapping_add(4);
        assert_eq!(after, expected, "{word:08x} at {}", setting.vl);
    });
}

/// Two machines with nothing in common but the low parts of what the word
/// reads: it writes the same to both.
#[test]
fn a_step_depends_only_on_its_reads() {
    each_word(12, 40, |setting, word, touched, random| {
        let mut first = any_machine(random);
        // Every byte is another one, those above VL too.
        let mut second = first.clone();
        for file in [&mut second.z, &mut second.p, &mut second.zt0] {
            for byte in file.iter_mut() {
                *byte = byte.wrapping_add(1 + random.below(255) as u8);
            }
        }
        second.w = first.w.map(|w| w.wrapping_add(1 + random.below(100)));
        second.pc = random.next_u64();
        for &register in &touched.reads {
            copy_register(&first, &mut second, register, setting.vl);
        }
        step(setting, word, &mut first).unwrap();
        step(setting, word, &mut second).unwrap();
        for &register in &touched.writes {
            let part = low_bytes(register, setting.vl);
            assert_eq!(
                file_of(&mut first, register)[part.clone()],
                file_of(&mut second, register)[part],
                "{word:08x} at {}",
                setting.vl
            );
        }
    });
}

/// Nothing is in the table's middle column for no reason: for every row,
/// each of its reads makes a difference on some machine.
#[test]
fn every_read_makes_a_difference() {
    for row in Row::ALL {
        let reads = match row {
            Row::Pext1 | Row::Pext2 => 1,
            // The second only of T words.
            Row::Luti4c | Row::Luti4s | Row::Narrow => 2,
            Row::Psel => 3,
        };
        let mut matters = vec![false; reads];
        each_word(13, 12, |setting, word, touched, random| {
            if decode(setting, word).unwrap().row() != row {
                return;
            }
            let before = any_machine(random);
            for (matter, &read) in matters.iter_mut().zip(&touched.reads) {
                let mut first = before.clone();
                let mut second = before.clone();
                copy_register(&any_machine(random), &mut second, read, setting.vl);
                step(setting, word, &mut first).unwrap();
                step(setting, word, &mut second).unwrap();
                for &register in &touched.writes {
                    let part = low_bytes(register, setting.vl);
                    *matter |= file_of(&mut first, register)[part.clone()]
                        != file_of(&mut second, register)[part];
                }
            }
        });
        assert!(matters.iter().all(|&matter| matter), "{row:?} {matters:?}");
    }
}
