//! Seeded cases: random and structured, sound and damaged.

mod edges;
mod indexes;
mod machines;
mod orders;
mod retired;
mod settings;
mod words;

use reference::random::Random;
use reference::setting::VECTOR_LENGTHS;

use self::edges::fill_source;
use self::indexes::index_question;
use self::machines::{any_bytes, damage_length, machine};
use self::orders::permitted;
use self::settings::{length_of_no_vector, setting};
use self::words::{numbers, stretch, word};
use crate::case::{Case, Kind, Request};

pub use self::retired::retired_values;
pub use self::settings::ALLOWED_FEATURES;

/// The stream of one case: cases do not depend on the threads that draw them.
pub fn random_of(seed: u64, kind: Kind, index: u64) -> Random {
    let start = Random::new(seed ^ (kind as u64) << 56).next_u64();
    Random::new(start ^ index.wrapping_mul(0xd134_2543_de82_ef95))
}

pub fn draw(kind: Kind, random: &mut Random) -> Case {
    match kind {
        Kind::Decode => Case::Decode {
            setting: setting(random),
            word: word(random),
            room: if one_in(random, 8) {
                random.pick(&[0, 1, 6, 8, 14])
            } else {
                7
            },
        },
        Kind::Encode => Case::Encode {
            setting: setting(random),
            numbers: numbers(random),
        },
        Kind::Step => {
            let setting = setting(random);
            let word = word(random);
            let mut machine = machine(random);
            if random.coin() {
                fill_source(random, word, &mut machine);
            }
            Case::Step {
                setting,
                word,
                machine,
            }
        }
        Kind::Run => {
            let setting = setting(random);
            let words = stretch(random, setting);
            let mut machine = machine(random);
            if !words.is_empty() {
                let word = random.pick(&words);
                fill_source(random, word, &mut machine);
            }
            Case::Run {
                setting,
                words,
                machine,
            }
        }
        Kind::Conflict => conflict(random),
        Kind::Permitted => permitted(random),
        Kind::Vector => Case::Vector(request(random, 32, 256, 8)),
        Kind::Predicate => Case::Predicate(request(random, 16, 32, 64)),
        Kind::Lines => lines(random),
        Kind::Index => Case::Index(index_question(random)),
    }
}

fn one_in(random: &mut Random, bound: u32) -> bool {
    random.below(bound) == 0
}

fn conflict(random: &mut Random) -> Case {
    let setting = setting(random);
    let first = word(random);
    let second = match random.below(8) {
        0 => first,
        1 => first ^ 1 << random.below(32),
        _ => word(random),
    };
    Case::Conflict {
        setting,
        first,
        second,
    }
}

fn request(random: &mut Random, slots: u32, slot: usize, bits_per_byte: u32) -> Request {
    let whole = slots as usize * slot;
    let mut file = any_bytes(random, whole);
    if one_in(random, 8) {
        damage_length(random, &mut file, slot);
    }
    let mut vl = random.pick(&VECTOR_LENGTHS);
    if one_in(random, 8) {
        vl = length_of_no_vector(random, vl);
    }
    let register = match random.below(8) {
        0 => random.pick(&[slots, slots + 1, 255, 256, 65536, 1 << 31, u32::MAX]),
        _ => random.below(slots),
    };
    let count = (vl / bits_per_byte).min(600);
    let room = match random.below(6) {
        0 => 0,
        1 => count.saturating_sub(1),
        2 => count,
        3 => count + 1,
        _ => random.below(300),
    };
    Request {
        file,
        vl,
        register,
        room: room as usize,
    }
}

fn lines(random: &mut Random) -> Case {
    let length = match random.below(16) {
        0 => random.below(2000),
        _ => random.below(60),
    } as usize;
    let mut input: Vec<u8> = Vec::with_capacity(length + 4);
    while input.len() < length {
        let word = word(random);
        input.extend_from_slice(&word.to_le_bytes());
    }
    input.truncate(length);
    let needed = 19 * (length as u32 / 4 + 1);
    let room = match random.below(6) {
        0 => random.below(40),
        1 => random.below(needed + 40),
        2 => needed - 1 - random.below(19),
        3 => needed,
        _ => needed + random.below(40),
    };
    Case::Lines {
        input,
        room: room as usize,
    }
}
