//! The commands about single words: list, decode, encode, conflict.

use std::fmt::Write as _;
use std::io::{self, Read, Write};

use gighull::{Setting, conflict, decode, lines};

use crate::failure::{Failure, Status, quoted};
use crate::lesson::way::{self, Way};
use crate::lesson::word;
use crate::touch::{listed, reason, touch};

/// A whole number of records, so that only the last part may be short.
const PART: u64 = 4 << 14;

/// Records of four bytes to lines, part by part.
pub fn list(mut input: impl Read, out: &mut impl Write) -> Result<(), ListError> {
    loop {
        let mut part = Vec::new();
        (&mut input)
            .take(PART)
            .read_to_end(&mut part)
            .map_err(ListError::Read)?;
        out.write_all(lines(&part).as_bytes())
            .map_err(ListError::Write)?;
        if (part.len() as u64) < PART {
            return Ok(());
        }
    }
}

pub enum ListError {
    Read(io::Error),
    Write(io::Error),
}

/// A line for each word.
pub fn decode_all(words: &[&str]) -> Result<(String, Status), Failure> {
    if words.is_empty() {
        let message = "which words? gighull decode 45283801 c08a9000";
        return Err(Failure::new("gighull decode", message));
    }
    let mut text = String::new();
    let mut status = Status::Done;
    for given in words {
        let word = word::hex(given).ok_or_else(|| {
            let given = quoted(given);
            Failure::new(
                "gighull decode",
                format!("{given} is no word: eight hex digits"),
            )
        })?;
        match decode(Setting::FULL, word) {
            Ok(instruction) => {
                let _ = writeln!(text, "{word:08x} {instruction}");
            }
            Err(refusal) => {
                let _ = writeln!(text, "{word:08x} {refusal}");
                status = Status::Refused;
            }
        }
    }
    Ok((text, status))
}

pub fn encode(arguments: &[&str]) -> Result<String, Failure> {
    let failure = |message: String| Failure::new("gighull encode", message);
    let Some((name, fields)) = arguments.split_first() else {
        let example = "gighull encode SQRSHRNT size=16 shift=3 zn=1 zd=2";
        return Err(failure(format!("which form? {example}")));
    };
    let way = Way::named(name).map_err(failure)?.ok_or_else(|| {
        let name = quoted(name);
        failure(format!("{name} is no form: {}", way::names()))
    })?;
    let instruction = way.instruction(fields).map_err(failure)?;
    let word = way
        .written(instruction)
        .map_err(|message| Failure::refused("gighull encode", message))?;
    Ok(format!("{word:08x}\n"))
}

/// Whether two words conflict, and by which register.
pub fn conflict_of(arguments: &[&str]) -> Result<String, Failure> {
    let failure = |message: String| Failure::new("gighull conflict", message);
    let [first, second] = arguments else {
        let example = "gighull conflict 45283801 'UQRSHRNB size=8 shift=8 zn=1 zd=2'";
        return Err(failure(format!("two words are compared: {example}")));
    };
    let first = word::word(first).map_err(failure)?;
    let second = word::word(second).map_err(failure)?;
    let setting = Setting::FULL;
    let yes = conflict(setting, first, second).map_err(|refusal| {
        let unread = if decode(setting, first).is_err() {
            first
        } else {
            second
        };
        Failure::refused("gighull conflict", format!("{unread:08x}: {refusal}"))
    })?;
    let mut text = String::from(if yes {
        "conflict: yes\n"
    } else {
        "conflict: no\n"
    });
    let mut touches = Vec::new();
    for word in [first, second] {
        let instruction = decode(setting, word);
        let instruction = instruction.map_err(|refusal| failure(refusal.to_string()))?;
        let touched = touch(instruction);
        let (reads, writes) = (listed(&touched.reads), listed(&touched.writes));
        let _ = writeln!(
            text,
            "{word:08x} {instruction}: reads {reads}, writes {writes}"
        );
        touches.push(touched);
    }
    let names = ("the first", "the second");
    if let Some(reason) = reason((names.0, &touches[0]), (names.1, &touches[1])) {
        let _ = writeln!(text, "{reason}");
    }
    Ok(text)
}
