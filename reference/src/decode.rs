//! From a word to an instruction.

use crate::instruction::Instruction;
use crate::layout::{self, Row};
use crate::refusal::Refusal;
use crate::setting::Setting;

/// Refuses with 1, then 3.
pub fn decode(setting: Setting, word: u32) -> Result<Instruction, Refusal> {
    if !setting.is_allowed() {
        return Err(Refusal::Setting);
    }
    let Some(row) = layout::row_by_fixed_bits(word) else {
        return Err(Refusal::Undefined);
    };
    // A failed condition ends it: no second, looser match is tried.
    if !layout::has_features(row, setting) || !layout::has_field_condition(row, word) {
        return Err(Refusal::Undefined);
    }
    Ok(read_fields(row, word))
}

/// The fields of a word that matches the row with its field condition.
fn read_fields(row: Row, word: u32) -> Instruction {
    match row {
        // imm2 is the portion
        Row::Pext1 => read_pext(word, bits(word, 8, 2), 1),
        // i1 is half the first portion
        Row::Pext2 => read_pext(word, 2 * bits(word, 8, 1), 2),
        Row::Psel => {
            let i1 = bits(word, 23, 1);
            let tszh = bits(word, 22, 1);
            let tszl = bits(word, 18, 3);
            let (size, offset) = psel_size_and_offset(i1, tszh, tszl);
            Instruction::Psel {
                size,
                offset,
                index: 12 + bits(word, 16, 2),
                pn: bits(word, 10, 4),
                pm: bits(word, 5, 4),
                pd: bits(word, 0, 4),
            }
        }
        Row::Luti4c => Instruction::Luti4c {
            size: 8 << bits(word, 12, 2),
            i1: bits(word, 16, 1),
            zn: bits(word, 5, 5),
            zd: 4 * bits(word, 2, 3),
        },
        Row::Luti4s => Instruction::Luti4s {
            size: 8 << bits(word, 12, 2),
            i1: bits(word, 16, 1),
            zn: bits(word, 5, 5),
            zd: 16 * bits(word, 4, 1) + bits(word, 0, 2),
        },
        Row::Narrow => {
            let tsz = (bits(word, 22, 1) << 2) | bits(word, 19, 2);
            let imm3 = bits(word, 16, 3);
            let size = narrow_size(tsz);
            Instruction::Narrow {
                bits: bits(word, 10, 4),
                size,
                shift: 2 * size - ((tsz << 3) | imm3),
                zn: bits(word, 5, 5),
                zd: bits(word, 0, 5),
            }
        }
    }
}

/// What both of PEXT's layouts have in the same places, and their portions.
fn read_pext(word: u32, first: u32, portions: u32) -> Instruction {
    Instruction::Pext {
        size: 8 << bits(word, 22, 2),
        first,
        portions,
        counter: 8 + bits(word, 5, 3),
        pd: bits(word, 0, 4),
    }
}

/// The `case tszh:tszl` of document 002, with imm = i1:tszh:tszl.
fn psel_size_and_offset(i1: u32, tszh: u32, tszl: u32) -> (u32, u32) {
    let imm = (i1 << 4) | (tszh << 3) | tszl;
    if imm & 0b0001 != 0 {
        (8, imm >> 1) // xxx1
    } else if imm & 0b0010 != 0 {
        (16, imm >> 2) // xx10
    } else if imm & 0b0100 != 0 {
        (32, imm >> 3) // x100
    } else {
        (64, imm >> 4) // 1000; 0000 does not get here
    }
}

/// The `case tsize` of document 004; 000 does not get here.
fn narrow_size(tsz: u32) -> u32 {
    if tsz & 0b100 != 0 {
        32 // 1xx
    } else if tsz & 0b010 != 0 {
        16 // 01x
    } else {
        8 // 001
    }
}

fn bits(word: u32, low: u32, width: u32) -> u32 {
    (word >> low) & ((1 << width) - 1)
}

#[cfg(test)]
mod tests {
    use super::*;
    use crate::setting::FULL;

    #[test]
    fn psel_cases() {
        assert_eq!(psel_size_and_offset(1, 1, 0b000), (64, 1));
        assert_eq!(psel_size_and_offset(0, 1, 0b000), (64, 0));
        assert_eq!(psel_size_and_offset(1, 0, 0b100), (32, 2));
        assert_eq!(psel_size_and_offset(1, 1, 0b110), (16, 7));
        assert_eq!(psel_size_and_offset(0, 0, 0b010), (16, 0));
        assert_eq!(psel_size_and_offset(1, 1, 0b111), (8, 15));
        assert_eq!(psel_size_and_offset(0, 1, 0b011), (8, 5));
    }

    #[test]
    fn setting_is_asked_before_the_word() {
        for features in [2, 8, 16, 32, 287, u32::MAX] {
            let setting = Setting { vl: 128, features };
            assert_eq!(decode(setting, 0), Err(Refusal::Setting));
            assert_eq!(decode(setting, 0x2520_7010), Err(Refusal::Setting));
        }
        for vl in [0, 64, 65664, u32::MAX] {
            let setting = Setting { vl, features: 31 };
            assert_eq!(decode(setting, 0x2520_7010), Err(Refusal::Setting));
        }
        assert_eq!(decode(FULL, 0), Err(Refusal::Undefined));
    }
}
