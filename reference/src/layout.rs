//! The layouts of document 01's table: for each row a mask that selects the
//! fixed bits and the value they must have, and the condition beside it.
//!
//! Everything about words goes by the six rows, everything about an
//! instruction's fields by the five forms of `instruction`.

use crate::instruction::Form;
use crate::setting::{SME, SME2, SME2P1, SVE2, SVE2P1, Setting};

/// A row of document 01's table, the third named as request 2 has it and the
/// last as request 1.
#[derive(Clone, Copy, Debug, PartialEq, Eq, Hash)]
pub enum Row {
    Pext1,
    Pext2,
    Psel,
    Luti4c,
    Luti4s,
    Narrow,
}

impl Row {
    /// In the order of document 01's table.
    pub const ALL: [Row; 6] = [
        Row::Pext1,
        Row::Pext2,
        Row::Psel,
        Row::Luti4c,
        Row::Luti4s,
        Row::Narrow,
    ];

    /// The form of the row's instructions.
    pub fn form(self) -> Form {
        match self {
            Row::Pext1 | Row::Pext2 => Form::Pext,
            Row::Psel => Form::Psel,
            Row::Luti4c => Form::Luti4c,
            Row::Luti4s => Form::Luti4s,
            Row::Narrow => Form::Narrow,
        }
    }

    pub fn name(self) -> &'static str {
        match self {
            Row::Pext1 => "PEXT1",
            Row::Pext2 => "PEXT2",
            Row::Psel => "PSEL",
            Row::Luti4c => "LUTI4C",
            Row::Luti4s => "LUTI4S",
            Row::Narrow => "NARROW",
        }
    }
}

pub struct Layout {
    pub row: Row,
    pub mask: u32,
    pub value: u32,
}

impl Layout {
    pub fn matches(&self, word: u32) -> bool {
        word & self.mask == self.value
    }
}

/// Bits from 31 down, one letter for each bit of a field.
///
/// - PEXT1:    00100101 ss 100000 01110 0 ii nnn 1 dddd
/// - PEXT2:    00100101 ss 100000 01110 10 i nnn 1 dddd
/// - PSEL:     00100101 i h 1 lll vv 01 nnnn 0 mmmm 0 dddd
/// - LUTI4C:   11000000 10001 01 i 10 ss 00 nnnnn ddd 00
/// - LUTI4S:   11000000 10011 01 i 10 ss 00 nnnnn D 00 dd
/// - NARROW:   01000101 0 h 1 ll iii 00 o U R T nnnnn ddddd
pub const LAYOUTS: [Layout; 6] = [
    Layout {
        row: Row::Pext1,
        mask: 0xff3f_fc10,
        value: 0x2520_7010,
    },
    Layout {
        row: Row::Pext2,
        mask: 0xff3f_fe10,
        value: 0x2520_7410,
    },
    Layout {
        row: Row::Psel,
        mask: 0xff20_c210,
        value: 0x2520_4000,
    },
    Layout {
        row: Row::Luti4c,
        mask: 0xfffe_cc03,
        value: 0xc08a_8000,
    },
    Layout {
        row: Row::Luti4s,
        mask: 0xfffe_cc0c,
        value: 0xc09a_8000,
    },
    Layout {
        row: Row::Narrow,
        mask: 0xffa0_c000,
        value: 0x4520_0000,
    },
];

pub fn layout_of(row: Row) -> &'static Layout {
    match row {
        Row::Pext1 => &LAYOUTS[0],
        Row::Pext2 => &LAYOUTS[1],
        Row::Psel => &LAYOUTS[2],
        Row::Luti4c => &LAYOUTS[3],
        Row::Luti4s => &LAYOUTS[4],
        Row::Narrow => &LAYOUTS[5],
    }
}

/// The row whose fixed bits the word has. No word has those of two rows
/// (tested below), so the order of the table does not matter.
pub fn row_by_fixed_bits(word: u32) -> Option<Row> {
    LAYOUTS
        .iter()
        .find(|layout| layout.matches(word))
        .map(|layout| layout.row)
}

/// The feature part of the condition.
pub fn has_features(row: Row, setting: Setting) -> bool {
    match row {
        Row::Pext1 | Row::Pext2 => setting.has(SME2) || setting.has(SVE2P1),
        // document 02, request 2
        Row::Psel => setting.has(SME) || setting.has(SVE2P1),
        Row::Luti4c => setting.has(SME2),
        Row::Luti4s => setting.has(SME2P1),
        Row::Narrow => setting.has(SVE2) || setting.has(SME),
    }
}

/// The field part of the condition, for a word with the row's fixed bits.
pub fn has_field_condition(row: Row, word: u32) -> bool {
    match row {
        Row::Pext1 | Row::Pext2 => true,
        // tszh:tszl not 0000: bit 22 and bits 20 to 18
        Row::Psel => word & 0x005c_0000 != 0,
        // size, bits 13 and 12, is 01 or 10
        Row::Luti4c => word & 0x3000 == 0x1000 || word & 0x3000 == 0x2000,
        // size is 01
        Row::Luti4s => word & 0x3000 == 0x1000,
        // tszh:tszl not 000: bit 22 and bits 20 and 19
        Row::Narrow => word & 0x0058_0000 != 0,
    }
}

#[cfg(test)]
mod tests {
    use super::*;

    #[test]
    fn layouts_are_in_the_order_of_the_rows() {
        for (layout, row) in LAYOUTS.iter().zip(Row::ALL) {
            assert_eq!(layout.row, row);
            assert_eq!(layout_of(row).row, row);
            assert_eq!(layout.value & !layout.mask, 0);
        }
    }

    /// Document 01's table, letter for letter, with the third row's letters as
    /// request 2 has them and the last row as request 1 has it: 0 and 1 are
    /// fixed, every other letter is a bit of a field.
    #[test]
    fn masks_and_values_agree_with_the_printed_rows() {
        let rows = [
            "00100101 ss 10000001110 0 ii nnn 1 dddd",
            "00100101 ss 10000001110 1 0 i nnn 1 dddd",
            "00100101 i h 1 lll vv 01 nnnn 0 mmmm 0 dddd",
            "1100000010001 01 i 10 ss 00 nnnnn ddd 00",
            "1100000010011 01 i 10 ss 00 nnnnn D 00 dd",
            "010001010 h 1 ll iii 00 oURT nnnnn ddddd",
        ];
        for (row, layout) in rows.iter().zip(&LAYOUTS) {
            let letters: Vec<char> = row.chars().filter(|&c| c != ' ').collect();
            assert_eq!(letters.len(), 32, "{row}");
            let (mut mask, mut value) = (0u32, 0u32);
            for (place, letter) in letters.iter().enumerate() {
                let bit = 1u32 << (31 - place);
                match letter {
                    '0' => mask |= bit,
                    '1' => {
                        mask |= bit;
                        value |= bit;
                    }
                    _ => {}
                }
            }
            assert_eq!((layout.mask, layout.value), (mask, value), "{row}");
        }
    }

    #[test]
    fn no_word_has_the_fixed_bits_of_two_rows() {
        for (i, a) in LAYOUTS.iter().enumerate() {
            for b in &LAYOUTS[i + 1..] {
                // They differ in a bit that both fix.
                let both = a.mask & b.mask;
                assert_ne!(a.value & both, b.value & both);
            }
        }
    }
}
