//! One line: the word in hex, the name of its form.

/// Eight digits and a tail: a line is first written at this fixed length,
/// which is cheaper than copying just as much as is needed; the next line
/// covers what is too much.
pub const LINE_ROOM: usize = 8 + TAIL_ROOM;

const TAIL_ROOM: usize = 16;

/// What follows the digits: a space, the name, a newline.
struct Tail {
    bytes: [u8; TAIL_ROOM],
    length: usize,
}

/// By the number of the form, 0 where there is none.
static TAILS: [Tail; 22] = [
    tail(b" UNDEFINED\n"),
    tail(b" PEXT1\n"),
    tail(b" PEXT2\n"),
    tail(b" PSEL\n"),
    tail(b" LUTI4C\n"),
    tail(b" LUTI4S\n"),
    tail(b" SQSHRUNB\n"),
    tail(b" SQSHRUNT\n"),
    tail(b" SQRSHRUNB\n"),
    tail(b" SQRSHRUNT\n"),
    tail(b" SHRNB\n"),
    tail(b" SHRNT\n"),
    tail(b" RSHRNB\n"),
    tail(b" RSHRNT\n"),
    tail(b" SQSHRNB\n"),
    tail(b" SQSHRNT\n"),
    tail(b" SQRSHRNB\n"),
    tail(b" SQRSHRNT\n"),
    tail(b" UQSHRNB\n"),
    tail(b" UQSHRNT\n"),
    tail(b" UQRSHRNB\n"),
    tail(b" UQRSHRNT\n"),
];

/// The two digits of every byte.
static DIGITS: [[u8; 2]; 256] = digits();

/// Writes the line of a word given low byte first, and says how long it is.
/// There must be `LINE_ROOM` bytes of room.
#[inline]
pub fn write_line(record: [u8; 4], form: u32, room: &mut [u8]) -> usize {
    let tail = &TAILS[form as usize];
    let room = &mut room[..LINE_ROOM];
    room[0..2].copy_from_slice(&DIGITS[usize::from(record[3])]);
    room[2..4].copy_from_slice(&DIGITS[usize::from(record[2])]);
    room[4..6].copy_from_slice(&DIGITS[usize::from(record[1])]);
    room[6..8].copy_from_slice(&DIGITS[usize::from(record[0])]);
    room[8..].copy_from_slice(&tail.bytes);
    8 + tail.length
}

/// The last line, for one to three bytes left over.
pub fn write_short(left_over: usize, room: &mut [u8]) -> usize {
    let text: &[u8] = match left_over {
        1 => b"SHORT 1\n",
        2 => b"SHORT 2\n",
        _ => b"SHORT 3\n",
    };
    room[..text.len()].copy_from_slice(text);
    text.len()
}

const fn tail(text: &[u8]) -> Tail {
    let mut bytes = [0; TAIL_ROOM];
    let mut i = 0;
    while i < text.len() {
        bytes[i] = text[i];
        i += 1;
    }
    Tail {
        bytes,
        length: text.len(),
    }
}

const fn digits() -> [[u8; 2]; 256] {
    let hex = b"0123456789abcdef";
    let mut table = [[0; 2]; 256];
    let mut byte = 0;
    while byte < 256 {
        table[byte] = [hex[byte >> 4], hex[byte & 15]];
        byte += 1;
    }
    table
}

#[cfg(test)]
mod tests {
    use super::*;
    use reference::instruction::NARROW_NAMES;

    fn line(word: u32, form: u32) -> String {
        let mut room = vec![b'x'; LINE_ROOM];
        let length = write_line(word.to_le_bytes(), form, &mut room);
        room.truncate(length);
        String::from_utf8(room).unwrap()
    }

    #[test]
    fn every_name() {
        assert_eq!(line(0x2520_4000, 0), "25204000 UNDEFINED\n");
        assert_eq!(line(0x2520_7010, 1), "25207010 PEXT1\n");
        assert_eq!(line(0x2520_741f, 2), "2520741f PEXT2\n");
        assert_eq!(line(0x25e0_4000, 3), "25e04000 PSEL\n");
        assert_eq!(line(0xc08a_9000, 4), "c08a9000 LUTI4C\n");
        assert_eq!(line(0xc09a_9000, 5), "c09a9000 LUTI4S\n");
        for (word, name) in (6..).zip(NARROW_NAMES) {
            assert_eq!(line(0x4528_0000, word), format!("45280000 {name}\n"));
        }
        assert_eq!(TAILS.len(), 6 + NARROW_NAMES.len());
    }

    #[test]
    fn every_digit() {
        for byte in 0..=255 {
            let word = byte << 24 | byte << 8 | 0x0001_0002;
            assert_eq!(line(word, 3), format!("{word:08x} PSEL\n"));
        }
    }
}
