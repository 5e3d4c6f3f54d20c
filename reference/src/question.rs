//! One question put to both programs, and the answer of this one. Questions
//! about a step have a page of their own, `step_question`.

use crate::decode::decode;
use crate::encode::encode;
use crate::instruction::{Form, Instruction};
use crate::refusal::{DONE, Refusal};
use crate::setting::Setting;
use crate::touch::conflict;

#[derive(Clone, Copy, Debug, PartialEq, Eq, Hash)]
pub enum Question {
    Decode {
        setting: Setting,
        word: u32,
    },
    Encode {
        setting: Setting,
        form: Form,
        /// In the form's order, unused places 0.
        fields: [u32; 6],
    },
    /// Encode of a form that is not used any more, whatever its list holds.
    EncodeRetired {
        setting: Setting,
        /// One of `RETIRED_FORMS`.
        form: u32,
        fields: [u32; 6],
    },
    /// Whether two words conflict.
    Conflict {
        setting: Setting,
        first: u32,
        second: u32,
    },
}

/// For decode: number, form (0 when refused), six fields (0 when refused).
/// For encode: number, word (0 when refused), six zeros.
/// For the retired encode: 1 or 9, seven zeros.
/// For conflict: number, 1 for yes or 0 for no (0 when refused), six zeros.
pub type Answer = [u32; 8];

impl Question {
    pub fn setting(&self) -> Setting {
        match *self {
            Question::Decode { setting, .. }
            | Question::Encode { setting, .. }
            | Question::EncodeRetired { setting, .. }
            | Question::Conflict { setting, .. } => setting,
        }
    }

    pub fn answer(&self) -> Answer {
        match *self {
            Question::Decode { setting, word } => match decode(setting, word) {
                Ok(instruction) => {
                    let [a, b, c, d, e, f] = instruction.fields();
                    [DONE, instruction.form().number(), a, b, c, d, e, f]
                }
                Err(refusal) => [refusal.number(), 0, 0, 0, 0, 0, 0, 0],
            },
            Question::Encode {
                setting,
                form,
                fields,
            } => match encode(setting, Instruction::from_fields(form, fields)) {
                Ok(word) => [DONE, word, 0, 0, 0, 0, 0, 0],
                Err(refusal) => [refusal.number(), 0, 0, 0, 0, 0, 0, 0],
            },
            Question::EncodeRetired { setting, .. } => {
                [retired(setting).number(), 0, 0, 0, 0, 0, 0, 0]
            }
            Question::Conflict {
                setting,
                first,
                second,
            } => match conflict(setting, first, second) {
                Ok(conflicting) => [DONE, u32::from(conflicting), 0, 0, 0, 0, 0, 0],
                Err(refusal) => [refusal.number(), 0, 0, 0, 0, 0, 0, 0],
            },
        }
    }
}

/// How writing a word of a retired form is refused: no list of it is in
/// range any more, and that is asked after the setting.
fn retired(setting: Setting) -> Refusal {
    if setting.is_allowed() {
        Refusal::Range
    } else {
        Refusal::Setting
    }
}
