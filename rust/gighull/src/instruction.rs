//! The forms and their fields, as document 01 reads them.

use std::fmt;

use crate::{Narrowing, ffi};

/// A row of document 01's table, where PEXT1 and PEXT2 are one, or a word of the
/// narrowing family.
#[derive(Clone, Copy, Debug, PartialEq, Eq, Hash)]
pub enum Form {
    Pext,
    Psel,
    Luti4c,
    Luti4s,
    Narrow(Narrowing),
}

/// All but the narrowing words.
const SINGLE: [Form; 4] = [Form::Pext, Form::Psel, Form::Luti4c, Form::Luti4s];

impl Form {
    /// In the order of the table, the narrowing words by number.
    pub const ALL: [Form; SINGLE.len() + Narrowing::ALL.len()] = {
        let mut all = [Form::Pext; SINGLE.len() + Narrowing::ALL.len()];
        let mut place = 0;
        while place < all.len() {
            all[place] = if place < SINGLE.len() {
                SINGLE[place]
            } else {
                Form::Narrow(Narrowing::ALL[place - SINGLE.len()])
            };
            place += 1;
        }
        all
    };

    /// The name in the listing; there PEXT is PEXT1 or PEXT2, by its portions.
    pub fn name(self) -> &'static str {
        match self {
            Form::Pext => "PEXT",
            Form::Psel => "PSEL",
            Form::Luti4c => "LUTI4C",
            Form::Luti4s => "LUTI4S",
            Form::Narrow(narrowing) => narrowing.name(),
        }
    }

    /// The names of its fields, in their order.
    pub const fn field_names(self) -> &'static [&'static str] {
        match self {
            Form::Pext => &["size", "first", "portions", "counter", "pd"],
            Form::Psel => &["size", "offset", "index", "pn", "pm", "pd"],
            Form::Luti4c | Form::Luti4s => &["size", "i1", "zn", "zd"],
            Form::Narrow(_) => &["size", "shift", "zn", "zd"],
        }
    }

    /// The instruction with these fields, in the order of their names; others
    /// are not looked at.
    pub const fn with(self, fields: [u32; 6]) -> Instruction {
        let [a, b, c, d, e, f] = fields;
        match self {
            Form::Pext => Instruction::Pext {
                size: a,
                first: b,
                portions: c,
                counter: d,
                pd: e,
            },
            Form::Psel => Instruction::Psel {
                size: a,
                offset: b,
                index: c,
                pn: d,
                pm: e,
                pd: f,
            },
            Form::Luti4c => Instruction::Luti4c {
                size: a,
                i1: b,
                zn: c,
                zd: d,
            },
            Form::Luti4s => Instruction::Luti4s {
                size: a,
                i1: b,
                zn: c,
                zd: d,
            },
            Form::Narrow(narrowing) => Instruction::Narrow {
                narrowing,
                size: a,
                shift: b,
                zn: c,
                zd: d,
            },
        }
    }
}

impl fmt::Display for Form {
    fn fmt(&self, out: &mut fmt::Formatter) -> fmt::Result {
        out.pad(self.name())
    }
}

/// An instruction: element sizes and shifts in bits, register numbers, never
/// raw bits of a word. Any number may stand in any field; [`encode`] asks
/// whether they are in range.
///
/// [`encode`]: crate::encode
#[derive(Clone, Copy, Debug, PartialEq, Eq, Hash)]
pub enum Instruction {
    /// Document 01 has it as two: PEXT1, of one portion, the imm2, and PEXT2, of
    /// two from 2 times the i1.
    Pext {
        size: u32,
        /// the first portion, 0 to 3, and 0 or 2 where there are two
        first: u32,
        /// how many, 1 or 2
        portions: u32,
        /// the counter register, 8 to 15
        counter: u32,
        /// the first destination; the one after P15 is P0
        pd: u32,
    },
    /// Document 01 has DUP in its place, of a draft that was withdrawn, and calls
    /// pn Pg and pm Pn.
    Psel {
        size: u32,
        offset: u32,
        /// the index register, 12 to 15
        index: u32,
        /// the register that is copied, whole
        pn: u32,
        /// the register of the one element
        pm: u32,
        pd: u32,
    },
    Luti4c {
        size: u32,
        i1: u32,
        zn: u32,
        /// the first destination, a multiple of 4
        zd: u32,
    },
    Luti4s {
        size: u32,
        i1: u32,
        zn: u32,
        /// the first destination, 0 to 3 or 16 to 19
        zd: u32,
    },
    Narrow {
        narrowing: Narrowing,
        /// the result's size
        size: u32,
        shift: u32,
        zn: u32,
        zd: u32,
    },
}

impl Instruction {
    pub const fn form(self) -> Form {
        match self {
            Instruction::Pext { .. } => Form::Pext,
            Instruction::Psel { .. } => Form::Psel,
            Instruction::Luti4c { .. } => Form::Luti4c,
            Instruction::Luti4s { .. } => Form::Luti4s,
            Instruction::Narrow { narrowing, .. } => Form::Narrow(narrowing),
        }
    }

    /// The values of its fields, in the order of their names, then zeros.
    pub const fn fields(self) -> [u32; 6] {
        match self {
            Instruction::Pext {
                size,
                first,
                portions,
                counter,
                pd,
            } => [size, first, portions, counter, pd, 0],
            Instruction::Psel {
                size,
                offset,
                index,
                pn,
                pm,
                pd,
            } => [size, offset, index, pn, pm, pd],
            Instruction::Luti4c { size, i1, zn, zd } | Instruction::Luti4s { size, i1, zn, zd } => {
                [size, i1, zn, zd, 0, 0]
            }
            Instruction::Narrow {
                size,
                shift,
                zn,
                zd,
                ..
            } => [size, shift, zn, zd, 0, 0],
        }
    }

    /// The library's seven numbers: the form's, then a narrowing word's own
    /// number, then the fields, then zeros.
    ///
    /// ```
    /// use gighull::{Instruction, Narrowing};
    /// let narrowing = Narrowing::new(14).unwrap();
    /// let narrow = Instruction::Narrow { narrowing, size: 8, shift: 3, zn: 1, zd: 2 };
    /// assert_eq!(narrow.numbers(), [6, 14, 8, 3, 1, 2, 0]);
    /// assert_eq!(Instruction::from_numbers([6, 14, 8, 3, 1, 2, 0]), Some(narrow));
    /// assert_eq!(Instruction::from_numbers([6, 16, 8, 3, 1, 2, 0]), None);
    /// let pext = Instruction::Pext { size: 8, first: 2, portions: 2, counter: 9, pd: 3 };
    /// assert_eq!(pext.numbers(), [7, 8, 2, 2, 9, 3, 0]);
    /// assert_eq!(Instruction::from_numbers([7, 8, 2, 2, 9, 3, 0]), Some(pext));
    /// for form in [0, 1, 5, 8] {
    ///     assert_eq!(Instruction::from_numbers([form, 8, 1, 8, 3, 0, 0]), None);
    /// }
    /// ```
    pub const fn numbers(self) -> [u32; ffi::FIELDS] {
        let [a, b, c, d, e, f] = self.fields();
        match self.form() {
            Form::Psel => [2, a, b, c, d, e, f],
            Form::Luti4c => [3, a, b, c, d, e, f],
            Form::Luti4s => [4, a, b, c, d, e, f],
            Form::Narrow(narrowing) => [6, narrowing.number(), a, b, c, d, e],
            Form::Pext => [7, a, b, c, d, e, f],
        }
    }

    /// None for the forms 0, 1 and 5, which are not used any more, a form above 7
    /// and a narrowing word above 15. Numbers after the form's own are not looked
    /// at.
    pub const fn from_numbers(numbers: [u32; ffi::FIELDS]) -> Option<Instruction> {
        let [form, a, b, c, d, e, f] = numbers;
        if form == 6 {
            return match Narrowing::new(a) {
                Some(narrowing) => Some(Form::Narrow(narrowing).with([b, c, d, e, f, 0])),
                None => None,
            };
        }
        let form = match form {
            2 => Form::Psel,
            3 => Form::Luti4c,
            4 => Form::Luti4s,
            7 => Form::Pext,
            _ => return None,
        };
        Some(form.with([a, b, c, d, e, f]))
    }
}

/// The form's name, then each field by its name.
///
/// ```
/// use gighull::{Instruction, Narrowing};
/// let narrowing = Narrowing::new(14).unwrap();
/// let narrow = Instruction::Narrow { narrowing, size: 8, shift: 3, zn: 1, zd: 2 };
/// assert_eq!(narrow.to_string(), "UQRSHRNB size=8 shift=3 zn=1 zd=2");
/// let pext = Instruction::Pext { size: 8, first: 2, portions: 2, counter: 9, pd: 3 };
/// assert_eq!(pext.to_string(), "PEXT size=8 first=2 portions=2 counter=9 pd=3");
/// ```
impl fmt::Display for Instruction {
    fn fmt(&self, out: &mut fmt::Formatter) -> fmt::Result {
        out.write_str(self.form().name())?;
        for (name, field) in self.form().field_names().iter().zip(self.fields()) {
            write!(out, " {name}={field}")?;
        }
        Ok(())
    }
}
