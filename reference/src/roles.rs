//! Words made by giving a register to one of a row's roles, the rest being
//! anything.

use crate::decode::decode;
use crate::encode::encode;
use crate::instruction::{Form, Instruction};
use crate::layout::Row;
use crate::random::Random;
use crate::samples;
use crate::setting::FULL;

/// What a register is to a word: the field it is given by, and how far it is
/// from that field's number.
#[derive(Clone, Copy, Debug, PartialEq, Eq)]
pub struct Role {
    pub row: Row,
    pub field: usize,
    pub distance: u32,
}

const fn role(row: Row, field: usize, distance: u32) -> Role {
    Role {
        row,
        field,
        distance,
    }
}

pub const PREDICATES_WRITTEN: [Role; 4] = [
    role(Row::Pext1, 4, 0),
    role(Row::Pext2, 4, 0),
    role(Row::Pext2, 4, 1),
    role(Row::Psel, 5, 0),
];

pub const PREDICATES_READ: [Role; 4] = [
    role(Row::Pext1, 3, 0),
    role(Row::Pext2, 3, 0),
    role(Row::Psel, 3, 0),
    role(Row::Psel, 4, 0),
];

pub const VECTORS_WRITTEN: [Role; 9] = [
    role(Row::Luti4c, 3, 0),
    role(Row::Luti4c, 3, 1),
    role(Row::Luti4c, 3, 2),
    role(Row::Luti4c, 3, 3),
    role(Row::Luti4s, 3, 0),
    role(Row::Luti4s, 3, 4),
    role(Row::Luti4s, 3, 8),
    role(Row::Luti4s, 3, 12),
    role(Row::Narrow, 4, 0),
];

pub const VECTORS_READ: [Role; 3] = [
    role(Row::Luti4c, 2, 0),
    role(Row::Luti4s, 2, 0),
    role(Row::Narrow, 3, 0),
];

/// PEXT1, PEXT2 and PSEL touch only predicates, the others only vectors.
pub const PREDICATE_ROWS: [Row; 3] = [Row::Pext1, Row::Pext2, Row::Psel];
pub const VECTOR_ROWS: [Row; 3] = [Row::Luti4c, Row::Luti4s, Row::Narrow];

/// The word of a form with fields in range.
pub fn word_of(form: Form, fields: [u32; 6]) -> u32 {
    encode(FULL, Instruction::from_fields(form, fields)).expect("the fields are in range")
}

/// A word in which the register has the role, if it can have it.
pub fn word_with(random: &mut Random, role: Role, register: u32) -> Option<u32> {
    let mut fields = samples::fields_in_range(random, role.row);
    let registers = if PREDICATE_ROWS.contains(&role.row) {
        16
    } else {
        32
    };
    // PEXT2's pair goes around; the four of LUTI4 never do, and a first
    // one that is none is not encoded.
    fields[role.field] = (register + registers - role.distance) % registers;
    encode(FULL, Instruction::from_fields(role.row.form(), fields)).ok()
}

/// Words that read a register in these roles and otherwise have no register
/// in common. This is tried until it is so, and told by all the registers of
/// both fields, not by the table of what is touched.
pub fn apart(random: &mut Random, a: Role, b: Role, register: u32) -> (u32, u32) {
    loop {
        let first = word_with(random, a, register);
        let second = word_with(random, b, register);
        if let (Some(first), Some(second)) = (first, second)
            && !share_another(a, first, b, second, register)
        {
            return (first, second);
        }
    }
}

fn share_another(a: Role, first: u32, b: Role, second: u32, register: u32) -> bool {
    let others = |role: Role, word: u32| -> Vec<u32> {
        let fields = decode(FULL, word)
            .expect("encoded under the same setting")
            .fields();
        let written = fields[role.row.form().field_count() - 1];
        match role.row {
            Row::Pext1 | Row::Narrow => vec![written],
            Row::Pext2 => vec![written, (written + 1) % 16],
            Row::Psel => vec![fields[3], fields[4], written],
            Row::Luti4c => (0..4).map(|r| written + r).collect(),
            Row::Luti4s => (0..4).map(|r| written + 4 * r).collect(),
        }
    };
    let mut of_first = others(a, first);
    let mut of_second = others(b, second);
    // PSEL lists what it reads too, the shared register among it; that is
    // left out once, so that it still counts where it is written.
    if a.row == Row::Psel {
        of_first.remove(a.field - 3);
    }
    if b.row == Row::Psel {
        of_second.remove(b.field - 3);
    }
    of_first.contains(&register)
        || of_second.contains(&register)
        || of_first.iter().any(|other| of_second.contains(other))
}
