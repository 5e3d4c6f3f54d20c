//! What a word reads and writes, and whether two words conflict.

use crate::decode::decode;
use crate::instruction::Instruction;
use crate::narrow::Kind;
use crate::refusal::Refusal;
use crate::setting::Setting;

/// A register of the table "What a word touches". PC is none of them.
#[derive(Clone, Copy, Debug, PartialEq, Eq, Hash)]
pub enum Register {
    Z(u32),
    P(u32),
    /// W12 to W15
    W(u32),
    Zt0,
}

#[derive(Clone, Debug, PartialEq, Eq)]
pub struct Touch {
    pub reads: Vec<Register>,
    pub writes: Vec<Register>,
}

/// The table's line for an instruction whose fields are in range.
pub fn touch(instruction: Instruction) -> Touch {
    use Register::{P, W, Z, Zt0};
    match instruction {
        Instruction::Pext {
            portions,
            counter,
            pd,
            ..
        } => Touch {
            reads: vec![P(counter)],
            writes: (0..portions).map(|k| P((pd + k) % 16)).collect(),
        },
        Instruction::Psel {
            index, pn, pm, pd, ..
        } => Touch {
            reads: vec![P(pn), P(pm), W(index)],
            writes: vec![P(pd)],
        },
        Instruction::Luti4c { zn, zd, .. } => Touch {
            reads: vec![Z(zn), Zt0],
            writes: (0..4).map(|r| Z(zd + r)).collect(),
        },
        Instruction::Luti4s { zn, zd, .. } => Touch {
            reads: vec![Z(zn), Zt0],
            writes: (0..4).map(|r| Z(zd + 4 * r)).collect(),
        },
        Instruction::Narrow { bits, zn, zd, .. } => Touch {
            // T set keeps the even elements of Zd, and so reads it.
            reads: if Kind::from_number(bits).t {
                vec![Z(zn), Z(zd)]
            } else {
                vec![Z(zn)]
            },
            writes: vec![Z(zd)],
        },
    }
}

/// Whether one writes a register that the other reads or writes.
pub fn touches_conflict(a: &Touch, b: &Touch) -> bool {
    let meets = |one: &Touch, other: &Touch| {
        one.writes
            .iter()
            .any(|register| other.reads.contains(register) || other.writes.contains(register))
    };
    meets(a, b) || meets(b, a)
}

/// Refuses with 1, then with 3 where either word cannot be read.
pub fn conflict(setting: Setting, a: u32, b: u32) -> Result<bool, Refusal> {
    let first = touch(decode(setting, a)?);
    let second = touch(decode(setting, b)?);
    Ok(touches_conflict(&first, &second))
}

#[cfg(test)]
mod tests {
    use super::*;
    use crate::encode::encode;
    use crate::instruction::Form;
    use crate::setting::FULL;

    fn word(form: Form, fields: [u32; 6]) -> u32 {
        encode(FULL, Instruction::from_fields(form, fields)).unwrap()
    }

    #[test]
    fn destinations_of_both_layouts() {
        let consecutive = Instruction::from_fields(Form::Luti4c, [16, 0, 0, 28, 0, 0]);
        let strided = Instruction::from_fields(Form::Luti4s, [16, 0, 0, 19, 0, 0]);
        let z = |numbers: [u32; 4]| numbers.map(Register::Z).to_vec();
        assert_eq!(touch(consecutive).writes, z([28, 29, 30, 31]));
        assert_eq!(touch(strided).writes, z([19, 23, 27, 31]));
    }

    /// The counter is read, and as many registers written as portions asked.
    #[test]
    fn destinations_of_pext() {
        use Register::P;
        for (portions, pd, written) in [
            (1, 3, vec![P(3)]),
            (1, 15, vec![P(15)]),
            (2, 3, vec![P(3), P(4)]),
            (2, 15, vec![P(15), P(0)]),
        ] {
            let pext = Instruction::from_fields(Form::Pext, [8, 2, portions, 9, pd, 0]);
            let touched = touch(pext);
            assert_eq!((touched.reads, touched.writes), (vec![P(9)], written));
        }
    }

    /// A T word reads its destination, a B word does not.
    #[test]
    fn what_the_family_reads() {
        for bits in 0..16 {
            let narrow = Instruction::from_fields(Form::Narrow, [bits, 8, 1, 5, 6, 0]);
            let touched = touch(narrow);
            assert_eq!(touched.writes, [Register::Z(6)]);
            if bits % 2 == 0 {
                assert_eq!(touched.reads, [Register::Z(5)]);
            } else {
                assert_eq!(touched.reads, [Register::Z(5), Register::Z(6)]);
            }
        }
    }

    #[test]
    fn readers_alone_do_not_conflict() {
        // Counter P9, Pn and Pm P9; all destinations apart.
        let pext = word(Form::Pext, [8, 0, 1, 9, 1, 0]);
        let psel = word(Form::Psel, [8, 0, 12, 9, 9, 2]);
        let other_psel = word(Form::Psel, [16, 1, 12, 9, 9, 3]);
        assert_eq!(conflict(FULL, pext, psel), Ok(false));
        assert_eq!(conflict(FULL, psel, other_psel), Ok(false));
        // Z30 and ZT0 are only read.
        let lookup = word(Form::Luti4c, [16, 0, 30, 0, 0, 0]);
        let other_lookup = word(Form::Luti4c, [32, 1, 30, 4, 0, 0]);
        assert_eq!(conflict(FULL, lookup, other_lookup), Ok(false));
    }

    #[test]
    fn z3_is_not_p3() {
        let narrow = word(Form::Narrow, [14, 8, 1, 3, 3, 0]);
        let psel = word(Form::Psel, [8, 0, 12, 3, 3, 3]);
        assert_eq!(conflict(FULL, narrow, psel), Ok(false));
        assert_eq!(conflict(FULL, narrow, narrow), Ok(true));
    }

    #[test]
    fn pairs_wrap_around() {
        let pair = word(Form::Pext, [8, 0, 2, 8, 15, 0]);
        let at_0 = word(Form::Pext, [8, 0, 1, 9, 0, 0]);
        let at_14 = word(Form::Pext, [8, 0, 1, 9, 14, 0]);
        assert_eq!(conflict(FULL, pair, at_0), Ok(true));
        assert_eq!(conflict(FULL, at_0, pair), Ok(true));
        assert_eq!(conflict(FULL, pair, at_14), Ok(false));
    }

    #[test]
    fn the_setting_is_asked_first() {
        let wrong = Setting {
            vl: 128,
            features: 2,
        };
        assert_eq!(conflict(wrong, 0, 0), Err(Refusal::Setting));
        assert_eq!(conflict(FULL, 0, 0x2520_7010), Err(Refusal::Undefined));
        assert_eq!(conflict(FULL, 0x2520_7010, 0), Err(Refusal::Undefined));
    }
}
