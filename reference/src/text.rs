//! Questions and answers as lines of text: numbers of exactly eight
//! lower-case hex digits, one space between them, a newline after the last.
//! So each number takes nine bytes with what follows it.
//!
//! The first number of a question is its kind. Every question has at least
//! nine numbers (81 bytes); these, or a further part of fixed length, tell how
//! many more there are.
//!
//! **Kinds 0 to 6, 8, 11 and 12** are `kind vl features n1 n2 n3 n4 n5 n6` (81
//! bytes). Kind 0 is decode with n1 the word. Kinds 1 to 6 are encode of a
//! list whose form is one less, kind 11 (`0000000b`) of form 6 and kind 12
//! (`0000000c`) of form 7, with the list's other six numbers in order; where
//! the form is not used any more (forms 0, 1 and 5, kinds 1, 2 and 6) these
//! may be anything. Kind 8 asks whether the words n1 and n2 conflict. Places
//! that are not used are 0. Their answers have eight numbers (72 bytes), told
//! in `question`; a form in them is one more than the list's, so 7 for form 6
//! and 8 for form 7.
//!
//! **Kind 7** is a step, twenty numbers (180 bytes):
//!
//! ```text
//! 00000007 vl features word flags w12 w13 w14 w15
//!   pc_high pc_low seed_high seed_low z_length p_length zt_length
//!   p_at p_value z_at z_value
//! ```
//!
//! on one line, with the files made as `expand` says. Its answer has fourteen
//! numbers (126 bytes):
//!
//! ```text
//! number w12 w13 w14 w15 pc_high pc_low flags
//!   z_hash_high z_hash_low p_hash_high p_hash_low zt_hash_high zt_hash_low
//! ```
//!
//! **Kind 9** is a run, twenty numbers (180 bytes) and as many words as the
//! last of the twenty says:
//!
//! ```text
//! 00000009 vl features flags w12 w13 w14 w15 pc_high
//!   pc_low seed_high seed_low z_length p_length zt_length
//!   p_at p_value z_at z_value count
//!   word ... word
//! ```
//!
//! on one line. These are the numbers of kind 7 without its word, then the
//! count, then the stretch, the first word first; with no words the newline
//! follows the count. Its answer has fifteen numbers (135 bytes), those of
//! kind 7's with the number of words done after the first:
//!
//! ```text
//! number done w12 w13 w14 w15 pc_high pc_low flags
//!   z_hash_high z_hash_low p_hash_high p_hash_low zt_hash_high zt_hash_low
//! ```
//!
//! **Kind 10** (`0000000a`) asks whether an order of a stretch is a permitted
//! rearrangement, nine numbers, the words and the order's entries:
//!
//! ```text
//! 0000000a vl features word_count order_count 00000000 00000000 00000000 00000000
//!   word ... word entry ... entry
//! ```
//!
//! on one line. An entry is a position in the stretch, counted from 0: the
//! first entry is that of the word that is to come first. The two counts need
//! not be equal. Its answer has two numbers (18 bytes), `number permitted`,
//! the second 1 or 0 (0 where refused).

mod machines;

use crate::instruction::{Form, RETIRED_FORMS};
use crate::permission_question::PermissionQuestion;
use crate::question::Question;
use crate::setting::Setting;

pub use machines::{
    LONGEST_FILE, STEP_QUESTION_BYTES, read_run_question, read_step_question, run_question_line,
    step_question_line,
};

/// A number and what follows it.
pub const NUMBER_BYTES: usize = 9;
pub const QUESTION_BYTES: usize = 9 * NUMBER_BYTES;
pub const ANSWER_BYTES: usize = 8 * NUMBER_BYTES;
pub const STEP_ANSWER_BYTES: usize = 14 * NUMBER_BYTES;
pub const RUN_ANSWER_BYTES: usize = 15 * NUMBER_BYTES;
pub const PERMISSION_ANSWER_BYTES: usize = 2 * NUMBER_BYTES;

pub const STEP_KIND: u32 = 7;
pub const CONFLICT_KIND: u32 = 8;
pub const RUN_KIND: u32 = 9;
pub const PERMISSION_KIND: u32 = 10;

/// Encode of the narrowing family; the kinds between were taken.
pub const NARROW_KIND: u32 = 11;
/// Encode of PEXT.
pub const PEXT_KIND: u32 = 12;

/// A question is not asked about more words or entries than this, so that a
/// wrong line cannot take all memory.
pub const LONGEST_LIST: u32 = 1 << 16;

pub fn question_line(question: &Question) -> String {
    let setting = question.setting();
    let (kind, [a, b, c, d, e, f]) = match *question {
        Question::Decode { word, .. } => (0, [word, 0, 0, 0, 0, 0]),
        Question::Encode { form, fields, .. } => (encode_kind(form), fields),
        Question::EncodeRetired { form, fields, .. } => (retired_kind(form), fields),
        Question::Conflict { first, second, .. } => (CONFLICT_KIND, [first, second, 0, 0, 0, 0]),
    };
    numbers_line(&[kind, setting.vl, setting.features, a, b, c, d, e, f])
}

pub fn permission_question_line(question: &PermissionQuestion) -> String {
    let Setting { vl, features } = question.setting;
    let (words, order) = (&question.words, &question.order);
    let counts = [words.len() as u32, order.len() as u32];
    let start = [
        PERMISSION_KIND,
        vl,
        features,
        counts[0],
        counts[1],
        0,
        0,
        0,
        0,
    ];
    numbers_line(&[&start, &words[..], &order[..]].concat())
}

/// The line of an answer of any kind.
pub fn answer_line(answer: &[u32]) -> String {
    numbers_line(answer)
}

/// How long a question is that starts with these bytes, as far as they tell.
/// It is whole when it is that long; otherwise one asks again with that many.
pub fn question_bytes(start: &[u8]) -> Result<usize, String> {
    if start.len() < QUESTION_BYTES {
        return Ok(QUESTION_BYTES);
    }
    match kind_of(start)? {
        STEP_KIND => Ok(STEP_QUESTION_BYTES),
        RUN_KIND => machines::run_question_bytes(start),
        PERMISSION_KIND => {
            let words = list_bytes(start, 3)?;
            let order = list_bytes(start, 4)?;
            Ok(QUESTION_BYTES + words + order)
        }
        _ => Ok(QUESTION_BYTES),
    }
}

/// The kind of a line of at least one number.
pub fn kind_of(line: &[u8]) -> Result<u32, String> {
    number_at(line, 0)
}

/// Refuses everything that `question_line` could not have written.
pub fn read_question(line: &[u8]) -> Result<Question, String> {
    let [kind, vl, features, fields @ ..] = read_numbers::<9>(line)?;
    let setting = Setting { vl, features };
    let form = Form::ALL
        .into_iter()
        .find(|&form| encode_kind(form) == kind);
    let retired = RETIRED_FORMS
        .into_iter()
        .find(|&form| retired_kind(form) == kind);
    let (used, question) = if let Some(form) = form {
        let question = Question::Encode {
            setting,
            form,
            fields,
        };
        (form.field_count(), question)
    } else if let Some(form) = retired {
        let question = Question::EncodeRetired {
            setting,
            form,
            fields,
        };
        (6, question)
    } else {
        let [first, second, ..] = fields;
        match kind {
            0 => {
                let word = first;
                (1, Question::Decode { setting, word })
            }
            CONFLICT_KIND => {
                let question = Question::Conflict {
                    setting,
                    first,
                    second,
                };
                (2, question)
            }
            _ => return Err(format!("there is no kind {kind:08x} of this length")),
        }
    };
    if fields[used..].iter().any(|&field| field != 0) {
        return Err("a place that is not used is not 0".to_string());
    }
    Ok(question)
}

/// The kind of a question about encode of a form.
fn encode_kind(form: Form) -> u32 {
    match form {
        Form::Psel | Form::Luti4c | Form::Luti4s => form.number(),
        Form::Narrow => NARROW_KIND,
        Form::Pext => PEXT_KIND,
    }
}

/// The kind of a question about encode of a form that is not used any more.
fn retired_kind(form: u32) -> u32 {
    form + 1
}

/// Refuses everything that `permission_question_line` could not have written.
pub fn read_permission_question(line: &[u8]) -> Result<PermissionQuestion, String> {
    let numbers = read_list(line)?;
    let [
        PERMISSION_KIND,
        vl,
        features,
        word_count,
        order_count,
        0,
        0,
        0,
        0,
        lists @ ..,
    ] = &numbers[..]
    else {
        return Err("not a question of this kind".to_string());
    };
    if lists.len() as u64 != u64::from(*word_count) + u64::from(*order_count) {
        return Err("not as many numbers as it says".to_string());
    }
    let (words, order) = lists.split_at(*word_count as usize);
    Ok(PermissionQuestion {
        setting: Setting {
            vl: *vl,
            features: *features,
        },
        words: words.to_vec(),
        order: order.to_vec(),
    })
}

fn numbers_line(numbers: &[u32]) -> String {
    let words: Vec<String> = numbers.iter().map(|n| format!("{n:08x}")).collect();
    words.join(" ") + "\n"
}

/// The numbers of a line of just so many.
fn read_numbers<const COUNT: usize>(line: &[u8]) -> Result<[u32; COUNT], String> {
    read_list(line)?
        .try_into()
        .map_err(|_| format!("not {COUNT} numbers"))
}

/// The numbers of a line.
fn read_list(line: &[u8]) -> Result<Vec<u32>, String> {
    let count = line.len() / NUMBER_BYTES;
    if count == 0 || !line.len().is_multiple_of(NUMBER_BYTES) {
        return Err("not whole numbers on one line".to_string());
    }
    for (place, after) in line.iter().skip(8).step_by(NUMBER_BYTES).enumerate() {
        let expected = if place == count - 1 { b'\n' } else { b' ' };
        if *after != expected {
            return Err("not single spaces and a newline at the end".to_string());
        }
    }
    (0..count).map(|place| number_at(line, place)).collect()
}

fn number_at(line: &[u8], place: usize) -> Result<u32, String> {
    let digits = line.iter().skip(NUMBER_BYTES * place).take(8);
    let mut number = 0;
    let mut count = 0;
    for &digit in digits {
        let value = digit_value(digit).ok_or("not lower-case hex digits")?;
        number = number << 4 | value;
        count += 1;
    }
    if count < 8 {
        return Err("not eight hex digits".to_string());
    }
    Ok(number)
}

/// The bytes of a list whose length is the number at this place.
fn list_bytes(line: &[u8], place: usize) -> Result<usize, String> {
    let count = number_at(line, place)?;
    if count > LONGEST_LIST {
        return Err("a list is too long to be asked about".to_string());
    }
    Ok(NUMBER_BYTES * count as usize)
}

fn digit_value(digit: u8) -> Option<u32> {
    match digit {
        b'0'..=b'9' => Some(u32::from(digit - b'0')),
        b'a'..=b'f' => Some(u32::from(digit - b'a') + 10),
        _ => None,
    }
}

#[cfg(test)]
mod tests {
    use super::*;

    const LINE: &[u8; QUESTION_BYTES] =
        b"00000003 00000080 0000001f 00000040 00000001 0000000c 00000000 00000000 ffffffff\n";

    #[test]
    fn a_line_is_read_and_written() {
        let question = read_question(LINE).unwrap();
        let expected = Question::Encode {
            setting: Setting {
                vl: 128,
                features: 31,
            },
            form: Form::Psel,
            fields: [64, 1, 12, 0, 0, u32::MAX],
        };
        assert_eq!(question, expected);
        assert_eq!(question_line(&question).as_bytes(), LINE);
    }

    /// PEXT by its kind, and the forms it had before by theirs.
    #[test]
    fn pext_lines_are_read_and_written() {
        let fields = [64, 2, 2, 9, 15, 0];
        let setting = crate::setting::FULL;
        let form = Form::Pext;
        let pext = Question::Encode {
            setting,
            form,
            fields,
        };
        let retired = |form| Question::EncodeRetired {
            setting,
            form,
            fields,
        };
        let numbers = "00000080 0000001f 00000040 00000002 00000002 00000009 0000000f 00000000";
        for (kind, question) in [
            ("0000000c", pext),
            ("00000001", retired(0)),
            ("00000002", retired(1)),
            ("00000006", retired(5)),
        ] {
            let line = format!("{kind} {numbers}\n");
            assert_eq!(question_line(&question), line);
            assert_eq!(read_question(line.as_bytes()), Ok(question));
        }
    }

    #[test]
    fn a_conflict_line_is_read_and_written() {
        let line =
            b"00000008 00000080 0000001f 25207010 2520741f 00000000 00000000 00000000 00000000\n";
        let question = read_question(line).unwrap();
        let expected = Question::Conflict {
            setting: crate::setting::FULL,
            first: 0x2520_7010,
            second: 0x2520_741f,
        };
        assert_eq!(question, expected);
        assert_eq!(question_line(&question).as_bytes(), line);
        let mut spoilt = *line;
        spoilt[52] = b'1';
        assert!(read_question(&spoilt).is_err());
    }

    #[test]
    fn a_permission_line_is_read_and_written() {
        let line = b"0000000a 00000080 0000001f 00000002 00000003 00000000 00000000 00000000 \
                     00000000 25207010 2520741f 00000001 00000000 ffffffff\n";
        let question = read_permission_question(line).unwrap();
        let expected = PermissionQuestion {
            setting: crate::setting::FULL,
            words: vec![0x2520_7010, 0x2520_741f],
            order: vec![1, 0, u32::MAX],
        };
        assert_eq!(question, expected);
        assert_eq!(permission_question_line(&question).as_bytes(), line);
        assert_eq!(question_bytes(&line[..10]), Ok(81));
        assert_eq!(question_bytes(&line[..81]), Ok(line.len()));
        assert_eq!(question_bytes(line), Ok(line.len()));
        let spoilt = |place: usize, byte: u8| {
            let mut line = *line;
            line[place] = byte;
            (question_bytes(&line), read_permission_question(&line))
        };
        assert_eq!(spoilt(9 * 3 + 7, b'1').0, Ok(line.len() - 9));
        assert!(spoilt(9 * 3 + 7, b'1').1.is_err()); // fewer words
        assert!(spoilt(9 * 3, b'f').0.is_err()); // far too many
        assert!(spoilt(9 * 4 + 2, b'1').0.is_err());
        assert!(spoilt(9 * 5 + 7, b'1').1.is_err()); // a place not used
        assert!(spoilt(9 * 9, b' ').1.is_err());
        assert!(spoilt(0, b'x').0.is_err());
    }

    #[test]
    fn answer_lines_have_their_lengths() {
        let line = answer_line(&[9, 0, 0, 0, 0, 0, 0, 0]);
        assert_eq!(line.len(), ANSWER_BYTES);
        assert!(line.starts_with("00000009 00000000 "));
        assert_eq!(answer_line(&[0; 14]).len(), STEP_ANSWER_BYTES);
        assert_eq!(answer_line(&[0; 15]).len(), RUN_ANSWER_BYTES);
        assert_eq!(answer_line(&[3, 0]), "00000003 00000000\n");
        assert_eq!(answer_line(&[0, 1]).len(), PERMISSION_ANSWER_BYTES);
    }

    #[test]
    fn other_lines_are_refused() {
        let spoilt = |place: usize, byte: u8| {
            let mut line = *LINE;
            line[place] = byte;
            read_question(&line)
        };
        assert!(spoilt(80, b' ').is_err());
        assert!(spoilt(8, b'\n').is_err());
        assert!(spoilt(79, b'F').is_err());
        assert!(spoilt(0, b'-').is_err());
        assert!(spoilt(7, b'7').is_err()); // a step is longer
        assert!(spoilt(7, b'9').is_err()); // and so is a run
        assert!(spoilt(7, b'b').is_err()); // the narrowing family has five fields
        assert!(spoilt(7, b'c').is_err()); // and so has PEXT
        assert!(spoilt(7, b'd').is_err()); // no kind 13
        for retired in [b'1', b'2', b'6'] {
            assert!(spoilt(7, retired).is_ok()); // whatever follows
        }
        assert!(spoilt(7, b'0').is_err()); // decode with more than a word
        assert!(spoilt(79, b'0').is_ok());
    }
}
