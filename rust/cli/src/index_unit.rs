//! What PSEL's index unit did for a word: its adder, its mask, and the element
//! that they choose. The three numbers are the library's.

use gighull::{IndexUnit, Instruction, Machine, psel_index};

use crate::register::{Elements, Register};

/// For a PSEL word that was done, by the machine before it; no other word has an
/// index unit.
pub fn told(instruction: Instruction, before: &Machine, vl: u32) -> Option<String> {
    let Instruction::Psel {
        size,
        offset,
        index: register,
        pm,
        ..
    } = instruction
    else {
        return None;
    };
    let w = before.scalars.w(register).expect("W12 to W15 are there");
    let IndexUnit { sum, mask, index } =
        psel_index(vl, size, offset, w).expect("a word that was done has its index");
    // The sum is below W exactly where a carry fell out.
    let wrapped = if sum < w { ", wrapped" } else { "" };
    let chooser = Elements {
        register: Register::P(pm),
        width: size,
    };
    let truth = chooser.get(before, index);
    Some(format!(
        "w{register} {w:#010x} + offset {offset} = sum {sum:#010x}{wrapped}; \
         sum AND mask {mask:#010x} = index {index}; {chooser} element {index} is {truth}"
    ))
}

#[cfg(test)]
mod tests {
    use super::*;
    use gighull::{Setting, decode};

    /// P3 with these elements of 16 bits, and W13.
    fn machine(truths: &[u32], w13: u32) -> Machine {
        let mut machine = Machine::new();
        for &index in truths {
            machine.set_bit(3, 2 * index, true).unwrap();
        }
        machine.scalars.w13 = w13;
        machine
    }

    #[test]
    fn with_and_without_a_carry() {
        let psel = |offset| Instruction::Psel {
            size: 16,
            offset,
            index: 13,
            pn: 1,
            pm: 3,
            pd: 3,
        };
        let before = machine(&[0, 15], 0xffff_ffff);
        for (offset, vl, line) in [
            (
                0,
                128,
                "w13 0xffffffff + offset 0 = sum 0xffffffff; \
                 sum AND mask 0x00000007 = index 7; p3.h element 7 is 0",
            ),
            (
                0,
                256,
                "w13 0xffffffff + offset 0 = sum 0xffffffff; \
                 sum AND mask 0x0000000f = index 15; p3.h element 15 is 1",
            ),
            (
                1,
                128,
                "w13 0xffffffff + offset 1 = sum 0x00000000, wrapped; \
                 sum AND mask 0x00000007 = index 0; p3.h element 0 is 1",
            ),
            (
                7,
                2048,
                "w13 0xffffffff + offset 7 = sum 0x00000006, wrapped; \
                 sum AND mask 0x0000007f = index 6; p3.h element 6 is 0",
            ),
        ] {
            assert_eq!(told(psel(offset), &before, vl).as_deref(), Some(line));
        }
        let told = told(psel(2), &machine(&[], 0x1234), 128).unwrap();
        let start = "w13 0x00001234 + offset 2 = sum 0x00001236; ";
        assert!(told.starts_with(start), "{told}");
    }

    #[test]
    fn only_psel_has_it() {
        for word in [
            0x2520_7010,
            0x2520_7410,
            0xc08a_9000,
            0xc09a_9000,
            0x4528_3801,
        ] {
            let instruction = decode(Setting::FULL, word).unwrap();
            assert_eq!(
                told(instruction, &Machine::new(), 128),
                None,
                "{instruction}"
            );
        }
    }
}
