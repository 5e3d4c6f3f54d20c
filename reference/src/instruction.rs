//! The five forms and their fields.
//!
//! Fields are as document 01 reads them, those of PSEL and PEXT as document
//! 02, requests 2 and 8, has them: element sizes in bits and register numbers,
//! never raw bits. An `Instruction` may hold any `u32` in any field; only
//! `encode` asks whether they are in range.

use crate::layout::Row;

/// Numbers of forms, as a list of numbers starts with them, that are not used
/// any more: PEXT1 and PEXT2 apart (request 8), and UQRSHRNB alone (request 1).
pub const RETIRED_FORMS: [u32; 3] = [0, 1, 5];

#[derive(Clone, Copy, Debug, PartialEq, Eq, Hash)]
pub enum Form {
    Pext,
    Psel,
    Luti4c,
    Luti4s,
    /// The sixteen words of document 004's layout.
    Narrow,
}

impl Form {
    /// In the order of document 01's table.
    pub const ALL: [Form; 5] = [
        Form::Pext,
        Form::Psel,
        Form::Luti4c,
        Form::Luti4s,
        Form::Narrow,
    ];

    /// One more than the number that a list starts with. The numbers of
    /// `RETIRED_FORMS` are not used again.
    pub fn number(self) -> u32 {
        match self {
            Form::Pext => 8,
            Form::Psel => 3,
            Form::Luti4c => 4,
            Form::Luti4s => 5,
            Form::Narrow => 7,
        }
    }

    pub fn from_number(number: u32) -> Option<Form> {
        Form::ALL.into_iter().find(|form| form.number() == number)
    }

    /// The form's own name; that of a word is `Instruction::name`.
    pub fn name(self) -> &'static str {
        match self {
            Form::Pext => "PEXT",
            Form::Psel => "PSEL",
            Form::Luti4c => "LUTI4C",
            Form::Luti4s => "LUTI4S",
            Form::Narrow => "NARROW",
        }
    }

    pub fn field_count(self) -> usize {
        match self {
            Form::Luti4c | Form::Luti4s => 4,
            Form::Pext | Form::Narrow => 5,
            Form::Psel => 6,
        }
    }
}

/// The manual's names of the family, by op:U:R:T.
pub const NARROW_NAMES: [&str; 16] = [
    "SQSHRUNB",
    "SQSHRUNT",
    "SQRSHRUNB",
    "SQRSHRUNT",
    "SHRNB",
    "SHRNT",
    "RSHRNB",
    "RSHRNT",
    "SQSHRNB",
    "SQSHRNT",
    "SQRSHRNB",
    "SQRSHRNT",
    "UQSHRNB",
    "UQSHRNT",
    "UQRSHRNB",
    "UQRSHRNT",
];

#[derive(Clone, Copy, Debug, PartialEq, Eq, Hash)]
pub enum Instruction {
    /// Document 02, request 8. Document 01 has two forms of it: PEXT1 is one
    /// portion, imm2, and PEXT2 two portions, the first being 2·i1.
    Pext {
        size: u32,
        /// the first portion
        first: u32,
        /// how many portions, 1 or 2
        portions: u32,
        /// the counter register, 8 to 15
        counter: u32,
        /// the first destination
        pd: u32,
    },
    /// Document 02, request 2. Document 01 calls the word DUP and its fields
    /// Pg (here Pn), Pn (here Pm) and Rm (here Rv, which gives the index).
    Psel {
        size: u32,
        offset: u32,
        /// the index register, W12 to W15
        index: u32,
        /// copied whole
        pn: u32,
        /// supplies the element at the index
        pm: u32,
        pd: u32,
    },
    Luti4c {
        size: u32,
        i1: u32,
        zn: u32,
        /// the first destination
        zd: u32,
    },
    Luti4s {
        size: u32,
        i1: u32,
        zn: u32,
        /// the first destination
        zd: u32,
    },
    Narrow {
        /// op:U:R:T, 0 to 15
        bits: u32,
        /// the result's size
        size: u32,
        shift: u32,
        zn: u32,
        zd: u32,
    },
}

impl Instruction {
    pub fn form(self) -> Form {
        match self {
            Instruction::Pext { .. } => Form::Pext,
            Instruction::Psel { .. } => Form::Psel,
            Instruction::Luti4c { .. } => Form::Luti4c,
            Instruction::Luti4s { .. } => Form::Luti4s,
            Instruction::Narrow { .. } => Form::Narrow,
        }
    }

    /// The row of its word, for fields that are in range.
    pub fn row(self) -> Row {
        match self {
            Instruction::Pext { portions: 2, .. } => Row::Pext2,
            Instruction::Pext { .. } => Row::Pext1,
            Instruction::Psel { .. } => Row::Psel,
            Instruction::Luti4c { .. } => Row::Luti4c,
            Instruction::Luti4s { .. } => Row::Luti4s,
            Instruction::Narrow { .. } => Row::Narrow,
        }
    }

    /// The name the lister gives to its word. A number of portions, or four
    /// bits, that no word has give the form's name.
    pub fn name(&self) -> &'static str {
        match *self {
            Instruction::Pext {
                portions: 1 | 2, ..
            } => self.row().name(),
            Instruction::Narrow { bits, .. } => NARROW_NAMES
                .get(bits as usize)
                .copied()
                .unwrap_or(Form::Narrow.name()),
            other => other.form().name(),
        }
    }

    /// The fields in their order, unused places 0.
    pub fn fields(self) -> [u32; 6] {
        match self {
            Instruction::Pext {
                size,
                first,
                portions,
                counter,
                pd,
            } => [size, first, portions, counter, pd, 0],
            Instruction::Psel {
                size,
                offset,
                index,
                pn,
                pm,
                pd,
            } => [size, offset, index, pn, pm, pd],
            Instruction::Luti4c { size, i1, zn, zd } => [size, i1, zn, zd, 0, 0],
            Instruction::Luti4s { size, i1, zn, zd } => [size, i1, zn, zd, 0, 0],
            Instruction::Narrow {
                bits,
                size,
                shift,
                zn,
                zd,
            } => [bits, size, shift, zn, zd, 0],
        }
    }

    /// The instruction with these fields; unused places are not looked at.
    pub fn from_fields(form: Form, fields: [u32; 6]) -> Instruction {
        let [a, b, c, d, e, f] = fields;
        match form {
            Form::Pext => Instruction::Pext {
                size: a,
                first: b,
                portions: c,
                counter: d,
                pd: e,
            },
            Form::Psel => Instruction::Psel {
                size: a,
                offset: b,
                index: c,
                pn: d,
                pm: e,
                pd: f,
            },
            Form::Luti4c => Instruction::Luti4c {
                size: a,
                i1: b,
                zn: c,
                zd: d,
            },
            Form::Luti4s => Instruction::Luti4s {
                size: a,
                i1: b,
                zn: c,
                zd: d,
            },
            Form::Narrow => Instruction::Narrow {
                bits: a,
                size: b,
                shift: c,
                zn: d,
                zd: e,
            },
        }
    }
}

#[cfg(test)]
mod tests {
    use super::*;

    #[test]
    fn retired_numbers_are_not_used() {
        let numbers: Vec<u32> = Form::ALL.iter().map(|form| form.number()).collect();
        assert_eq!(numbers, [8, 3, 4, 5, 7]);
        for retired in RETIRED_FORMS {
            assert_eq!(Form::from_number(retired + 1), None);
        }
        for number in [0, 9, 256 + 8, u32::MAX] {
            assert_eq!(Form::from_number(number), None);
        }
    }

    /// Request 8: the lister's names stay, by the number of portions.
    #[test]
    fn names_of_pext() {
        for (portions, name) in [
            (0, "PEXT"),
            (1, "PEXT1"),
            (2, "PEXT2"),
            (3, "PEXT"),
            (257, "PEXT"),
            (u32::MAX, "PEXT"),
        ] {
            let pext = Instruction::from_fields(Form::Pext, [8, 0, portions, 8, 0, 0]);
            assert_eq!(pext.name(), name);
        }
    }

    #[test]
    fn fields_keep_their_places() {
        for form in Form::ALL {
            let mut fields = [0; 6];
            for (place, field) in fields.iter_mut().enumerate().take(form.field_count()) {
                *field = 100 + place as u32;
            }
            let instruction = Instruction::from_fields(form, fields);
            assert_eq!(instruction.form(), form);
            assert_eq!(instruction.fields(), fields);
        }
    }
}
