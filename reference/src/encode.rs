//! From an instruction to a word.

use crate::instruction::Instruction;
use crate::layout::{self, layout_of};
use crate::refusal::Refusal;
use crate::setting::Setting;

/// Refuses with 1, then 9, then 3. Any `u32` may stand in any field.
pub fn encode(setting: Setting, instruction: Instruction) -> Result<u32, Refusal> {
    if !setting.is_allowed() {
        return Err(Refusal::Setting);
    }
    if !in_range(instruction) {
        return Err(Refusal::Range);
    }
    // The ranges already imply the field condition: only a feature can miss.
    let row = instruction.row();
    if !layout::has_features(row, setting) {
        return Err(Refusal::Undefined);
    }
    Ok(layout_of(row).value | field_bits(instruction))
}

/// Whether every field is in document 01's range for writing, and PEXT's
/// portions in that of document 02, request 8.
pub fn in_range(instruction: Instruction) -> bool {
    match instruction {
        Instruction::Pext {
            size,
            first,
            portions,
            counter,
            pd,
        } => {
            size_index(size).is_some()
                && portions_in_range(first, portions)
                && is_counter(counter)
                && is_predicate(pd)
        }
        Instruction::Psel {
            size,
            offset,
            index,
            pn,
            pm,
            pd,
        } => {
            psel_offset_in_range(size, offset)
                && (12..=15).contains(&index)
                && is_predicate(pn)
                && is_predicate(pm)
                && is_predicate(pd)
        }
        Instruction::Luti4c { size, i1, zn, zd } => {
            (size == 16 || size == 32)
                && i1 <= 1
                && is_vector(zn)
                && zd <= 28
                && zd.is_multiple_of(4)
        }
        Instruction::Luti4s { size, i1, zn, zd } => {
            size == 16 && i1 <= 1 && is_vector(zn) && (zd <= 3 || (16..=19).contains(&zd))
        }
        Instruction::Narrow {
            bits,
            size,
            shift,
            zn,
            zd,
        } => {
            bits <= 15
                && (size == 8 || size == 16 || size == 32)
                && shift >= 1
                && shift <= size
                && is_vector(zn)
                && is_vector(zd)
        }
    }
}

/// Whether PEXT has this number of portions, and this first one with it.
pub fn portions_in_range(first: u32, portions: u32) -> bool {
    let odd_pair = portions == 2 && first % 2 == 1;
    (portions == 1 || portions == 2) && first <= 3 && !odd_pair
}

/// Whether PSEL has this element size, and this offset at it.
pub fn psel_offset_in_range(size: u32, offset: u32) -> bool {
    // The size is tested first: 0 must divide nothing.
    size_index(size).is_some() && offset < 128 / size
}

/// The bits of the fields in their places, for fields that are in range.
fn field_bits(instruction: Instruction) -> u32 {
    match instruction {
        Instruction::Pext {
            size,
            first,
            portions,
            counter,
            pd,
        } => {
            // i1 is half the first portion, imm2 the one portion itself.
            let number = if portions == 2 { first / 2 } else { first };
            size_bits(size) << 22 | number << 8 | (counter - 8) << 5 | pd
        }
        Instruction::Psel {
            size,
            offset,
            index,
            pn,
            pm,
            pd,
        } => {
            // i1:tszh:tszl is the offset, then a 1, then a 0 for each
            // doubling of the size beyond 8.
            let imm = (2 * offset + 1) << size_bits(size);
            let i1 = (imm >> 4) & 1;
            let tszh = (imm >> 3) & 1;
            let tszl = imm & 7;
            i1 << 23 | tszh << 22 | tszl << 18 | (index - 12) << 16 | pn << 10 | pm << 5 | pd
        }
        Instruction::Luti4c { size, i1, zn, zd } => {
            size_bits(size) << 12 | i1 << 16 | zn << 5 | (zd / 4) << 2
        }
        Instruction::Luti4s { size, i1, zn, zd } => {
            // D is bit 4 of the register number, Zd its low two bits; both
            // stand in the word where they stand in the number.
            size_bits(size) << 12 | i1 << 16 | zn << 5 | (zd & 0x13)
        }
        Instruction::Narrow {
            bits,
            size,
            shift,
            zn,
            zd,
        } => {
            // tszh:tszl:imm3
            let amount = 2 * size - shift;
            let tszh = amount >> 5;
            let tszl_imm3 = amount & 0x1f;
            tszh << 22 | tszl_imm3 << 16 | bits << 10 | zn << 5 | zd
        }
    }
}

/// 0 to 3 for 8, 16, 32 and 64 bits.
fn size_index(size: u32) -> Option<u32> {
    match size {
        8 => Some(0),
        16 => Some(1),
        32 => Some(2),
        64 => Some(3),
        _ => None,
    }
}

/// The same for a size already known to be in range.
fn size_bits(size: u32) -> u32 {
    size_index(size).expect("the range was tested before")
}

fn is_predicate(register: u32) -> bool {
    register <= 15
}

fn is_counter(register: u32) -> bool {
    (8..=15).contains(&register)
}

fn is_vector(register: u32) -> bool {
    register <= 31
}

#[cfg(test)]
mod tests {
    use super::*;
    use crate::instruction::Form;
    use crate::setting::FULL;

    fn psel(fields: [u32; 6]) -> Instruction {
        Instruction::from_fields(Form::Psel, fields)
    }

    #[test]
    fn refusals_come_in_the_order_1_9_3() {
        let good = psel([64, 1, 12, 0, 0, 0]);
        let bad = psel([64, 2, 12, 0, 0, 0]);
        let sve2_alone = Setting {
            vl: 128,
            features: 1,
        };
        let wrong = Setting {
            vl: 128,
            features: 35,
        };
        assert_eq!(encode(FULL, good), Ok(0x25e0_4000));
        assert_eq!(encode(FULL, bad), Err(Refusal::Range));
        assert_eq!(encode(sve2_alone, good), Err(Refusal::Undefined));
        assert_eq!(encode(sve2_alone, bad), Err(Refusal::Range));
        assert_eq!(encode(wrong, good), Err(Refusal::Setting));
        assert_eq!(encode(wrong, bad), Err(Refusal::Setting));
    }

    /// Document 02, request 8: each new refusal by itself, and in the order.
    #[test]
    fn portions_of_pext() {
        let pext =
            |first, portions| Instruction::from_fields(Form::Pext, [8, first, portions, 8, 0, 0]);
        let sve2_alone = Setting {
            vl: 128,
            features: 1,
        };
        let wrong = Setting {
            vl: 64,
            features: 31,
        };
        for (first, portions, word) in [
            (0, 1, 0x2520_7010),
            (3, 1, 0x2520_7310),
            (0, 2, 0x2520_7410),
            (2, 2, 0x2520_7510),
        ] {
            let good = pext(first, portions);
            assert_eq!(encode(FULL, good), Ok(word));
            assert_eq!(encode(sve2_alone, good), Err(Refusal::Undefined));
            assert_eq!(encode(wrong, good), Err(Refusal::Setting));
        }
        for (first, portions) in [
            (0, 0),
            (0, 3),
            (0, 257),
            (2, u32::MAX),
            (4, 1),
            (4, 2),
            (1 << 31, 1),
            (u32::MAX - 1, 2),
            (1, 2),
            (3, 2),
        ] {
            let bad = pext(first, portions);
            for setting in [FULL, sve2_alone] {
                assert_eq!(encode(setting, bad), Err(Refusal::Range), "{bad:?}");
            }
            assert_eq!(encode(wrong, bad), Err(Refusal::Setting));
        }
    }

    #[test]
    fn size_zero_divides_nothing() {
        assert_eq!(encode(FULL, psel([0, 0, 12, 0, 0, 0])), Err(Refusal::Range));
    }

    #[test]
    fn casts_do_not_let_values_in() {
        for size in [264, 65544, (1 << 31) + 8] {
            let instruction = psel([size, 0, 12, 0, 0, 0]);
            assert_eq!(encode(FULL, instruction), Err(Refusal::Range));
        }
        for fields in [[14, 8, 264, 0, 0, 0], [256 + 14, 8, 8, 0, 0, 0]] {
            let instruction = Instruction::from_fields(Form::Narrow, fields);
            assert_eq!(encode(FULL, instruction), Err(Refusal::Range));
        }
    }
}
