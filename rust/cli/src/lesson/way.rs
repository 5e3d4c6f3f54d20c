//! The ways to write an instruction: a name, and fields by theirs.

use gighull::{Form, Instruction, Refusal, Setting, encode};

use super::values::number;
use crate::failure::quoted;

/// A way to write an instruction.
#[derive(Clone, Copy)]
pub struct Way {
    name: &'static str,
    fields: &'static [&'static str],
    /// What may stand in them.
    ranges: &'static str,
    form: Form,
    /// From the values of its own fields to those of the form's.
    to_form: fn([u32; 6]) -> [u32; 6],
}

/// The older ways to write PEXT, of one portion and of two, by its names in a
/// listing.
const OLDER: [Way; 2] = [
    Way {
        name: "PEXT1",
        fields: &["size", "imm2", "counter", "pd"],
        ranges: "size 8, 16, 32 or 64; imm2 0 to 3; counter 8 to 15; pd 0 to 15",
        form: Form::Pext,
        to_form: |[size, imm2, counter, pd, ..]| [size, imm2, 1, counter, pd, 0],
    },
    Way {
        name: "PEXT2",
        fields: &["size", "i1", "counter", "pd"],
        ranges: "size 8, 16, 32 or 64; i1 0 or 1; counter 8 to 15; pd 0 to 15",
        form: Form::Pext,
        // Without a wrap: an i1 of 2^31 is out of range, and not 0.
        to_form: |[size, i1, counter, pd, ..]| [size, i1.saturating_mul(2), 2, counter, pd, 0],
    },
];

/// Each form's own way, the older ones behind it.
fn ways() -> impl Iterator<Item = Way> {
    Form::ALL.into_iter().flat_map(|form| {
        let older = OLDER.into_iter().filter(move |way| way.form == form);
        [Way::of(form)].into_iter().chain(older)
    })
}

/// The names that an instruction can be written by.
pub fn names() -> String {
    let names: Vec<&str> = ways().map(|way| way.name).collect();
    names.join(", ")
}

impl Way {
    /// By a form's own name and fields.
    fn of(form: Form) -> Way {
        Way {
            name: form.name(),
            fields: form.field_names(),
            ranges: ranges(form),
            form,
            to_form: |values| values,
        }
    }

    /// By its name, in either case. DUP, which old lessons have, is refused.
    pub fn named(name: &str) -> Result<Option<Way>, String> {
        let is = |known: &str| known.eq_ignore_ascii_case(name);
        if is("DUP") {
            let fields = Way::of(Form::Psel).field_list();
            return Err(format!(
                "DUP is PSEL now, another operation: write PSEL with the fields {fields}"
            ));
        }
        Ok(ways().find(|way| is(way.name)))
    }

    /// The names of its fields. Old lessons have another pn than PSEL's, so it is
    /// said which that is.
    fn field_list(self) -> String {
        let told = |name: &&'static str| match (self.form, *name) {
            (Form::Psel, "pn") => "pn (copied whole)",
            (Form::Psel, "pm") => "pm (has the element)",
            (_, name) => name,
        };
        let names: Vec<&str> = self.fields.iter().map(told).collect();
        names.join(", ")
    }

    /// The instruction with these fields, each given once, in any order.
    pub fn instruction(self, fields: &[&str]) -> Result<Instruction, String> {
        let Way { name: way, .. } = self;
        let known = || self.field_list();
        let mut found = vec![None; self.fields.len()];
        for field in fields {
            let Some((name, value)) = field.split_once('=') else {
                let field = quoted(field);
                return Err(format!("{way}: {field} is no field=value: {}", known()));
            };
            let Some(place) = self.fields.iter().position(|known| *known == name) else {
                return Err(format!("{way} has no field {}: {}", quoted(name), known()));
            };
            if found[place].is_some() {
                return Err(format!("{way}: {name} is given twice"));
            }
            let value = number(value).and_then(|value| u32::try_from(value).ok());
            let value = value.ok_or_else(|| format!("{way}: {} is no number", quoted(field)))?;
            found[place] = Some(value);
        }
        let mut values = [0; 6];
        for ((field, value), name) in values.iter_mut().zip(&found).zip(self.fields) {
            *field = value.ok_or_else(|| format!("{way}: field {name} is missing: {}", known()))?;
        }
        Ok(self.form.with((self.to_form)(values)))
    }

    /// The word of an instruction, or the bench's answer with the ranges. A word
    /// is the same under every feature; whether the bench then reads it is asked
    /// when it comes to run.
    pub fn written(self, instruction: Instruction) -> Result<u32, String> {
        let Way { name, ranges, .. } = self;
        encode(Setting::FULL, instruction).map_err(|refusal| match refusal {
            Refusal::Range => format!("{name}: {refusal} ({ranges})"),
            _ => format!("{name}: {refusal}"),
        })
    }
}

/// What may stand in a form's fields for writing, by document 01, and for PEXT by
/// document 02, request 8.
fn ranges(form: Form) -> &'static str {
    match form {
        Form::Pext => {
            "size 8, 16, 32 or 64; first 0 to 3, with two portions 0 or 2; portions 1 or 2; \
             counter 8 to 15; pd 0 to 15"
        }
        Form::Psel => {
            "size 8, 16, 32 or 64; offset below 128/size; index 12 to 15; pn, pm, pd 0 to 15"
        }
        Form::Luti4c => "size 16 or 32; i1 0 or 1; zn 0 to 31; zd a multiple of 4 up to 28",
        Form::Luti4s => "size 16; i1 0 or 1; zn 0 to 31; zd 0 to 3 or 16 to 19",
        Form::Narrow(_) => "size 8, 16 or 32; shift 1 to size; zn, zd 0 to 31",
    }
}
