//! As which elements a register is told.

use std::collections::BTreeMap;

use gighull::{Instruction, Machine, Setting, decode};

use crate::lesson::{Content, Lesson, Start};
use crate::register::{Elements, Register};
use crate::touch::touch;

/// What kind of elements a register was last given.
#[derive(Clone, Copy, Debug, PartialEq, Eq)]
pub struct Given {
    pub width: u32,
    pub signed: bool,
}

/// The registers that have been given something.
pub struct Views(BTreeMap<Register, Given>);

impl Views {
    /// By a lesson's contents and the first words of its stretch.
    pub fn of(lesson: &Lesson, setting: Setting, words: usize) -> Views {
        let mut given = BTreeMap::new();
        for Content { start, .. } in &lesson.contents {
            if let Start::Elements { elements, values } = start {
                let (width, signed) = (elements.width, values.signed);
                given.insert(elements.register, Given { width, signed });
            }
        }
        for word in lesson.words.iter().take(words) {
            if let Ok(instruction) = decode(setting, word.word) {
                // PSEL copies Pn whole: its size is that of Pm's elements.
                let copied = match instruction {
                    Instruction::Psel { pn, .. } => given.get(&Register::P(pn)).copied(),
                    _ => None,
                };
                let new = copied.unwrap_or_else(|| written(instruction));
                let registers = touch(instruction).writes;
                given.extend(registers.into_iter().map(|register| (register, new)));
            }
        }
        Views(given)
    }

    /// The elements as which a register is told: of the width that it was
    /// given, but where a predicate has bits between those, of 8 bits, which
    /// shows every bit.
    pub fn elements(&self, register: Register, machines: &[&Machine], vl: u32) -> Elements {
        let width = self.0.get(&register).map(|given| given.width);
        view(register, width, machines, vl)
    }

    /// The values of a register's elements, with their signs where it was given
    /// such elements with a sign.
    pub fn values(&self, elements: Elements, machine: &Machine, vl: u32) -> Vec<i128> {
        let asked = Given {
            width: elements.width,
            signed: true,
        };
        let signed = self.0.get(&elements.register) == Some(&asked);
        let told = |value| {
            if signed {
                i128::from(elements.with_sign(value))
            } else {
                i128::from(value)
            }
        };
        elements.all(machine, vl).into_iter().map(told).collect()
    }
}

/// What a word writes. Results of a B word without signs are told with the
/// zeros above them, as wide as the sources were.
fn written(instruction: Instruction) -> Given {
    let (width, signed) = match instruction {
        Instruction::Narrow {
            narrowing, size, ..
        } => {
            let signed = narrowing.is_signed();
            let alone = signed || narrowing.t();
            (if alone { size } else { 2 * size }, signed)
        }
        Instruction::Pext { size, .. }
        | Instruction::Psel { size, .. }
        | Instruction::Luti4c { size, .. }
        | Instruction::Luti4s { size, .. } => (size, false),
    };
    Given { width, signed }
}

/// Elements of a width, if there is one, that show every bit that there is.
pub fn view(register: Register, width: Option<u32>, machines: &[&Machine], vl: u32) -> Elements {
    let narrowest = match register {
        Register::Zt0 => 32,
        _ => 8,
    };
    let all = Elements {
        register,
        width: narrowest,
    };
    let Some(elements) = width.and_then(|width| Elements::new(register, width)) else {
        return all;
    };
    let step = (elements.width / narrowest) as usize;
    let between = |machine: &&Machine| {
        let bits = all.all(machine, vl);
        bits.iter()
            .enumerate()
            .any(|(b, &bit)| bit != 0 && b % step != 0)
    };
    let hides = matches!(register, Register::P(_)) && machines.iter().any(between);
    if hides { all } else { elements }
}
