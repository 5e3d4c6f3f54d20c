//! From a word to an instruction.

use crate::setting::{SME, SME2, SME2P1, SVE2, SVE2P1};

/// Sizes are in bits, registers by their numbers.
#[derive(Clone, Copy, Debug, PartialEq, Eq)]
pub enum Instruction {
    Pext1 {
        size: usize,
        portion: usize,
        pn: usize,
        pd: usize,
    },
    /// Portions `portion` and `portion` + 1 to `pd` and the register after it.
    Pext2 {
        size: usize,
        portion: usize,
        pn: usize,
        pd: usize,
    },
    Psel {
        size: usize,
        offset: u32,
        /// 0 to 3 for W12 to W15
        rv: usize,
        /// the register that is copied
        pn: usize,
        /// the register of the one element
        pm: usize,
        pd: usize,
    },
    /// LUTI4C and LUTI4S: to `zd` and three more registers, `stride` apart.
    Luti4 {
        size: usize,
        i1: usize,
        zn: usize,
        zd: usize,
        stride: usize,
    },
    Narrow(Narrow),
}

/// A word of the narrowing family, with the bits op, U, R and T as they stand.
/// The size is the result's.
#[derive(Clone, Copy, Debug, PartialEq, Eq)]
pub struct Narrow {
    pub op: bool,
    pub u: bool,
    /// rounds
    pub r: bool,
    /// writes the odd elements
    pub t: bool,
    pub size: usize,
    pub shift: u32,
    pub zn: usize,
    pub zd: usize,
}

/// Nothing where the word is undefined under these features.
#[inline]
pub fn decode(features: u32, word: u32) -> Option<Instruction> {
    let has = |wanted| features & wanted != 0;
    if word & 0xff3f_fc10 == 0x2520_7010 && has(SME2 | SVE2P1) {
        Some(Instruction::Pext1 {
            size: 8 << field(word, 22, 2),
            portion: field(word, 8, 2),
            pn: 8 + field(word, 5, 3),
            pd: field(word, 0, 4),
        })
    } else if word & 0xff3f_fe10 == 0x2520_7410 && has(SME2 | SVE2P1) {
        Some(Instruction::Pext2 {
            size: 8 << field(word, 22, 2),
            portion: 2 * field(word, 8, 1),
            pn: 8 + field(word, 5, 3),
            pd: field(word, 0, 4),
        })
    } else if word & 0xff20_c210 == 0x2520_4000 && has(SME | SVE2P1) {
        // i1:tszh:tszl; the lowest set bit of tszh:tszl gives the size, the
        // bits above it are the offset.
        let immediate = field(word, 22, 2) << 3 | field(word, 18, 3);
        if immediate & 15 == 0 {
            return None;
        }
        let zeros = immediate.trailing_zeros();
        Some(Instruction::Psel {
            size: 8 << zeros,
            offset: (immediate >> (zeros + 1)) as u32,
            rv: field(word, 16, 2),
            pn: field(word, 10, 4),
            pm: field(word, 5, 4),
            pd: field(word, 0, 4),
        })
    } else if word & 0xfffe_cc03 == 0xc08a_8000 && has(SME2) {
        let size = match field(word, 12, 2) {
            1 => 16,
            2 => 32,
            _ => return None,
        };
        Some(Instruction::Luti4 {
            size,
            i1: field(word, 16, 1),
            zn: field(word, 5, 5),
            zd: field(word, 0, 5),
            stride: 1,
        })
    } else if word & 0xfffe_fc0c == 0xc09a_9000 && has(SME2P1) {
        Some(Instruction::Luti4 {
            size: 16,
            i1: field(word, 16, 1),
            zn: field(word, 5, 5),
            zd: field(word, 0, 5),
            stride: 4,
        })
    } else if word & 0xffa0_c000 == 0x4520_0000 && has(SVE2 | SME) {
        // tszh:tszl:imm3; tszh:tszl gives the size.
        let immediate = field(word, 22, 1) << 5 | field(word, 16, 5);
        let size = match immediate >> 3 {
            0 => return None,
            1 => 8,
            2 | 3 => 16,
            _ => 32,
        };
        Some(Instruction::Narrow(Narrow {
            op: field(word, 13, 1) == 1,
            u: field(word, 12, 1) == 1,
            r: field(word, 11, 1) == 1,
            t: field(word, 10, 1) == 1,
            size,
            shift: (2 * size - immediate) as u32,
            zn: field(word, 5, 5),
            zd: field(word, 0, 5),
        }))
    } else {
        None
    }
}

#[inline]
fn field(word: u32, low: u32, width: u32) -> usize {
    (word >> low & ((1 << width) - 1)) as usize
}
