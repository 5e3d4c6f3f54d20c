//! Which access flags a word needs.

use crate::instruction::Form;
use crate::machine::Flags;
use crate::refusal::Refusal;
use crate::setting::{SVE2P1, Setting};

/// The last column of document 01's table.
pub fn needed(form: Form, setting: Setting) -> Flags {
    const V: Flags = Flags {
        v: true,
        s: false,
        t: false,
    };
    const S: Flags = Flags {
        v: false,
        s: true,
        t: false,
    };
    const S_AND_T: Flags = Flags {
        v: false,
        s: true,
        t: true,
    };
    match form {
        Form::Pext if setting.has(SVE2P1) => V,
        Form::Pext => S,
        // V also where the feature is only SME: so says document 01, and for
        // PSEL document 02, request 2, leaves it so.
        Form::Psel | Form::Narrow => V,
        Form::Luti4c | Form::Luti4s => S_AND_T,
    }
}

/// Refuses with 4 or 5, then 6. No form needs both V and S.
pub fn check(form: Form, setting: Setting, flags: Flags) -> Result<(), Refusal> {
    let needed = needed(form, setting);
    if needed.v && !flags.v {
        return Err(Refusal::VectorClosed);
    }
    if needed.s && !flags.s {
        return Err(Refusal::StreamingClosed);
    }
    if needed.t && !flags.t {
        return Err(Refusal::TableClosed);
    }
    Ok(())
}
