//! Words as hex, or by name and fields.

use super::way::{Way, names};
use crate::failure::quoted;

/// Eight hex digits, `0x` before them or not.
pub fn hex(text: &str) -> Option<u32> {
    let digits = text.strip_prefix("0x").unwrap_or(text);
    let plain = digits.len() == 8 && digits.bytes().all(|digit| digit.is_ascii_hexdigit());
    plain.then(|| u32::from_str_radix(digits, 16).ok())?
}

/// `45283801`, or `UQRSHRNB size=8 shift=8 zn=0 zd=1`.
pub fn word(text: &str) -> Result<u32, String> {
    let mut tokens = text.split_whitespace();
    let first = tokens.next().unwrap_or("");
    if let Some(way) = Way::named(first)? {
        let fields: Vec<&str> = tokens.collect();
        return way.written(way.instruction(&fields)?);
    }
    match (hex(first), tokens.next()) {
        (Some(word), None) => Ok(word),
        (Some(_), Some(more)) => Err(format!("{} follows a word", quoted(more))),
        (None, _) => Err(format!(
            "{} is no word: eight hex digits, or one of the forms {}",
            quoted(first),
            names()
        )),
    }
}

#[cfg(test)]
mod tests {
    use super::*;

    #[test]
    fn words() {
        assert_eq!(word("45283801"), Ok(0x4528_3801));
        assert_eq!(word("0xC08A9000"), Ok(0xc08a_9000));
        let narrow = "uqrshrnb zd=1 zn=0 size=8 shift=8";
        assert_eq!(word(narrow), Ok(0x4528_3801));
        let top = "SQRSHRNT size=16 shift=3 zn=1 zd=2";
        assert_eq!(word(top), Ok(0x453d_2c22));
        for text in [
            "",
            "4528380",
            "452838011",
            "+5283801",
            "45283801 1",
            "NOP",
            "UQRSHRNB",
            "UQRSHRN size=8 shift=8 zn=0 zd=1",
            "UQRSHRNB size=8 shift=8 zn=0",
            "UQRSHRNB size=8 shift=9 zn=0 zd=1",
            "UQRSHRNB size=8 shift=8 zn=0 zd=1 zd=1",
            "UQRSHRNB size=8 shift=8 zn=0 zd=1 pd=1",
            "UQRSHRNB size=8 shift=8 zn=0 zd=4294967297",
            "UQRSHRNB size=8 shift=8 zn zd=1",
        ] {
            assert!(word(text).is_err(), "{text}");
        }
    }
}
