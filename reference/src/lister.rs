//! The lister of document 01: records of four bytes, low byte first, each
//! giving one line; bytes left over give a last line SHORT.

use std::io::{self, Read, Write};

use crate::decode::decode;
use crate::setting::FULL;

/// The whole text for a whole input.
pub fn list(input: &[u8]) -> Vec<u8> {
    let mut text = Vec::new();
    let records = input.chunks_exact(4);
    let left_over = records.remainder().len();
    for record in records {
        text.extend_from_slice(&digits(word_of(record)));
        text.push(b' ');
        text.extend_from_slice(name(word_of(record)).as_bytes());
        text.push(b'\n');
    }
    if left_over > 0 {
        text.extend_from_slice(format!("SHORT {left_over}\n").as_bytes());
    }
    text
}

/// The same for input of any length, holding only a part of it at a time.
pub fn list_stream(input: &mut impl Read, output: &mut impl Write) -> io::Result<()> {
    let mut buffer = vec![0u8; 64 * 1024];
    let mut kept = 0; // bytes of a record that is not complete yet
    loop {
        let got = match input.read(&mut buffer[kept..]) {
            Ok(0) => break,
            Ok(got) => got,
            Err(error) if error.kind() == io::ErrorKind::Interrupted => continue,
            Err(error) => return Err(error),
        };
        let held = kept + got;
        kept = held % 4;
        let whole = held - kept;
        output.write_all(&list(&buffer[..whole]))?;
        buffer.copy_within(whole..held, 0);
    }
    output.write_all(&list(&buffer[..kept]))
}

/// The name of a word under all features and VL 128.
pub fn name(word: u32) -> &'static str {
    match decode(FULL, word) {
        Ok(instruction) => instruction.name(),
        Err(_) => "UNDEFINED",
    }
}

/// Eight lower-case hex digits, the highest first.
fn digits(word: u32) -> [u8; 8] {
    let mut digits = [0; 8];
    for (place, digit) in digits.iter_mut().enumerate() {
        let value = (word >> (28 - 4 * place)) & 15;
        *digit = b"0123456789abcdef"[value as usize];
    }
    digits
}

fn word_of(record: &[u8]) -> u32 {
    u32::from(record[0])
        | u32::from(record[1]) << 8
        | u32::from(record[2]) << 16
        | u32::from(record[3]) << 24
}

#[cfg(test)]
mod tests {
    use super::*;
    use crate::samples::listing_words;

    #[test]
    fn example_of_document_01() {
        let input = [
            0x10, 0x70, 0x20, 0x25, 0x00, 0x40, 0x20, 0x25, 0x00, 0x38, 0x28, 0x45,
        ];
        let text = b"25207010 PEXT1\n25204000 UNDEFINED\n45283800 UQRSHRNB\n";
        assert_eq!(list(&input), text);
    }

    /// Document 02, request 2: point 10's words, and one without a size.
    #[test]
    fn name_of_psel() {
        assert_eq!(list(&0x252c_4000u32.to_le_bytes()), b"252c4000 PSEL\n");
        assert_eq!(name(0x25e0_4000), "PSEL");
        assert_eq!(name(0x25a0_4000), "UNDEFINED");
    }

    /// Request 1's names, and none longer than UNDEFINED.
    #[test]
    fn names_of_the_family() {
        let names = "SQSHRUNB SQSHRUNT SQRSHRUNB SQRSHRUNT SHRNB SHRNT RSHRNB RSHRNT \
                     SQSHRNB SQSHRNT SQRSHRNB SQRSHRNT UQSHRNB UQSHRNT UQRSHRNB UQRSHRNT";
        let mut word = 0x4528_0000;
        for expected in names.split(' ') {
            assert!(expected.len() <= "UNDEFINED".len());
            assert_eq!(name(word), expected);
            let line = format!("{word:08x} {expected}\n");
            assert_eq!(list(&word.to_le_bytes()), line.as_bytes());
            // tszh:tszl 000
            assert_eq!(name(word & !0x0058_0000), "UNDEFINED");
            word += 0x400;
        }
        assert_eq!(word, 0x4528_4000);
        assert_eq!(name(word), "UNDEFINED");
    }

    #[test]
    fn digits_are_those_of_the_standard_library() {
        for word in (0..=u32::MAX).step_by(12_345_677) {
            assert_eq!(digits(word), format!("{word:08x}").as_bytes());
        }
    }

    #[test]
    fn left_over_bytes() {
        assert_eq!(list(&[]), b"");
        assert_eq!(list(&[0xff]), b"SHORT 1\n");
        assert_eq!(list(&[0xff; 2]), b"SHORT 2\n");
        assert_eq!(list(&[0xff; 3]), b"SHORT 3\n");
        assert_eq!(list(&[0xff; 4]), b"ffffffff UNDEFINED\n");
        assert_eq!(list(&[0; 7]), b"00000000 UNDEFINED\nSHORT 3\n");
    }

    /// Gives at most `step` bytes for each read.
    struct Slow<'a> {
        bytes: &'a [u8],
        step: usize,
    }

    impl Read for Slow<'_> {
        fn read(&mut self, buffer: &mut [u8]) -> io::Result<usize> {
            let count = self.step.min(buffer.len()).min(self.bytes.len());
            buffer[..count].copy_from_slice(&self.bytes[..count]);
            self.bytes = &self.bytes[count..];
            Ok(count)
        }
    }

    #[test]
    fn stream_gives_the_same_text_in_any_steps() {
        let mut bytes = Vec::new();
        for word in listing_words(5, 40_000) {
            bytes.extend_from_slice(&word.to_le_bytes());
        }
        for length in [
            0, 1, 2, 3, 4, 5, 1001, 65_535, 65_536, 65_537, 131_075, 159_999,
        ] {
            let part = &bytes[..length];
            let whole = list(part);
            for step in [1, 3, 5, 7, 4093, 65_535, usize::MAX] {
                let mut text = Vec::new();
                let mut slow = Slow { bytes: part, step };
                list_stream(&mut slow, &mut text).unwrap();
                assert_eq!(text, whole, "length {length}, step {step}");
            }
        }
    }
}
