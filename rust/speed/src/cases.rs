//! What `leafspeed` and `archivespeed` time: stretches of 256 words and single
//! steps, and the machine that they start on.

use reference::decode::decode;
use reference::instruction::{Instruction, NARROW_NAMES};
use reference::layout::Row;
use reference::random::Random;
use reference::samples::{listing_words, matching_word};
use reference::setting::FULL;

/// The vector lengths that every case is timed at.
pub const LENGTHS: [u32; 5] = [128, 256, 512, 1024, 2048];
pub const FEATURES: u32 = 31;
const STRETCH: usize = 256;

/// What the machine's files hold at the start.
#[derive(Clone, Copy, Debug, PartialEq, Eq)]
pub enum Files {
    Random,
    Cleared,
}

/// A machine, its scalars as a side wants them.
pub struct Machine<Scalars> {
    pub z: Vec<u8>,
    pub p: Vec<u8>,
    pub zt: Vec<u8>,
    pub scalars: Scalars,
}

/// W12 to W15 at the start.
pub const W: [u32; 4] = [1, 0x8000_0003, 2, 3];

impl<Scalars> Machine<Scalars> {
    /// The same files at every call.
    pub fn start(files: Files, scalars: Scalars) -> Machine<Scalars> {
        let mut random = Random::new(5);
        let mut bytes = |count: usize| match files {
            Files::Random => (0..count).map(|_| random.next_u32() as u8).collect(),
            Files::Cleared => vec![0; count],
        };
        let (z, mut p, zt) = (bytes(8192), bytes(512), bytes(64));
        // P7 holds no true element.
        p[224..256].fill(0);
        Machine { z, p, zt, scalars }
    }
}

/// What the words of a case have in common.
#[derive(Clone, Copy)]
pub enum Kind {
    /// One row of the table and size.
    Row(Row),
    /// One narrowing word, by op:U:R:T, and size.
    Narrow(u32),
    /// PSEL by an element that is false.
    False,
    /// Every row.
    Mixed,
    /// All are refused.
    Refused,
}

/// Words that are run as one stretch, or stepped one by one.
pub struct Case {
    pub name: String,
    pub kind: Kind,
    pub words: Vec<u32>,
    pub stepped: bool,
    /// What every word must answer, and whether V is open.
    pub answer: u32,
    pub open: bool,
}

impl Case {
    /// A stretch of words that are done.
    fn stretch(name: &str, kind: Kind, words: Vec<u32>) -> Case {
        Case {
            name: name.to_string(),
            kind,
            words,
            stepped: false,
            answer: 0,
            open: true,
        }
    }

    /// The same words, stepped.
    fn steps(name: &str, kind: Kind, words: Vec<u32>) -> Case {
        Case {
            stepped: true,
            ..Case::stretch(&format!("step: {name}"), kind, words)
        }
    }

    pub fn has_psel(&self) -> bool {
        self.words.iter().any(|&word| is_psel(word))
    }
}

pub fn is_psel(word: u32) -> bool {
    matches!(decode(FULL, word), Ok(Instruction::Psel { .. }))
}

/// Which words there are.
#[derive(Clone, Copy, PartialEq, Eq)]
pub enum Words {
    All,
    /// Those that archives with version 1 of the interface know too: of the
    /// narrowing words UQRSHRNB alone.
    Old,
}

/// UQRSHRNB's op:U:R:T.
pub const UQRSHRNB: u32 = 0b1110;

impl Words {
    /// The word, or one that is in its place.
    pub fn known(self, word: u32) -> u32 {
        match decode(FULL, word) {
            Ok(Instruction::Narrow { .. }) if self == Words::Old => narrow(word, UQRSHRNB),
            _ => word,
        }
    }

    fn has(self, bits: u32) -> bool {
        self == Words::All || bits == UQRSHRNB
    }
}

/// The narrowing word with this op:U:R:T and the same fields.
fn narrow(word: u32, bits: u32) -> u32 {
    word & !0x3c00 | bits << 10
}

pub fn cases(known: Words) -> Vec<Case> {
    let (mut cases, mut steps) = (Vec::new(), Vec::new());
    let mut both = |name: &str, size, kind, words: Vec<u32>| {
        let name = format!("{name} {}", letter(size));
        steps.push(Case::steps(&name, kind, words.clone()));
        cases.push(Case::stretch(&name, kind, words));
    };
    for row in Row::ALL.into_iter().filter(|&row| row != Row::Narrow) {
        for &size in sizes(row) {
            both(row.name(), size, Kind::Row(row), of_row(row, size));
        }
    }
    for (bits, name) in (0..).zip(NARROW_NAMES).filter(|&(bits, _)| known.has(bits)) {
        for &size in sizes(Row::Narrow) {
            let words = of_row(Row::Narrow, size).into_iter();
            let words = words.map(|word| narrow(word, bits)).collect();
            both(name, size, Kind::Narrow(bits), words);
        }
    }
    let falses = of_false(&of_row(Row::Psel, 8));
    cases.push(Case::stretch("PSEL B, false", Kind::False, falses));
    for seed in 1..=3 {
        let name = format!("mixed, {seed}");
        let words = mixed(seed).into_iter().map(|word| known.known(word));
        cases.push(Case::stretch(&name, Kind::Mixed, words.collect()));
    }
    cases.extend(steps);
    let undefined = vec![0x2520_4000; STRETCH];
    cases.push(Case {
        answer: 3,
        ..Case::steps("undefined", Kind::Refused, undefined)
    });
    let closed = of_row(Row::Narrow, 8).into_iter();
    let closed = closed.map(|word| narrow(word, UQRSHRNB)).collect();
    cases.push(Case {
        answer: 4,
        open: false,
        ..Case::steps("V closed", Kind::Refused, closed)
    });
    cases
}

fn sizes(row: Row) -> &'static [u32] {
    match row {
        Row::Pext1 | Row::Pext2 | Row::Psel => &[8, 16, 32, 64],
        Row::Luti4c => &[16, 32],
        Row::Luti4s => &[16],
        Row::Narrow => &[8, 16, 32],
    }
}

fn letter(size: u32) -> &'static str {
    ["B", "H", "S", "D"][size.trailing_zeros() as usize - 3]
}

/// Words that are done, of every row, in no order.
fn mixed(seed: u64) -> Vec<u32> {
    listing_words(seed, 100_000)
        .filter(|&word| decode(FULL, word).is_ok())
        .take(STRETCH)
        .collect()
}

/// Words of a row and size whose sources no one of them writes: the two halves
/// of a file are apart, and P7 is left to the false elements. (What a narrowing
/// word with T keeps of its destination is no such source.)
fn of_row(row: Row, size: u32) -> Vec<u32> {
    // The place in the table, from 1: the same words as in earlier figures.
    let place = Row::ALL.iter().position(|&known| known == row);
    let place = place.expect("ALL has every row") as u64 + 1;
    let mut random = Random::new(place * 64 + u64::from(size));
    let mut words = Vec::new();
    while words.len() < STRETCH {
        let word = matching_word(&mut random, row);
        let fields = decode(FULL, word).expect("the word matches").fields();
        let (found, apart) = match row {
            Row::Pext1 => (fields[0], fields[4] < 8),
            Row::Pext2 => (fields[0], fields[4] < 7),
            Row::Psel => (fields[0], fields[3] < 7 && fields[4] < 7 && fields[5] >= 8),
            Row::Luti4c | Row::Luti4s => (fields[0], fields[2] < 16 && fields[3] >= 16),
            Row::Narrow => (fields[1], fields[3] < 16 && fields[4] >= 16),
        };
        if apart && found == size {
            words.push(word);
        }
    }
    words
}

/// The same with P7, which holds no true element, as Pm.
fn of_false(words: &[u32]) -> Vec<u32> {
    words.iter().map(|word| word & !0x1e0 | 7 << 5).collect()
}

#[cfg(test)]
mod tests {
    use super::*;

    #[test]
    fn every_word_of_a_row_has_its_name_and_size() {
        for case in cases(Words::All) {
            let Kind::Narrow(bits) = case.kind else {
                continue;
            };
            let name = NARROW_NAMES[bits as usize];
            assert_eq!(case.words.len(), STRETCH);
            for word in case.words {
                let instruction = decode(FULL, word).unwrap();
                let row = format!("{} {}", instruction.name(), letter(instruction.fields()[1]));
                assert!(case.name.ends_with(&row) && row.starts_with(name), "{row}");
            }
        }
    }

    /// Nothing but what an archive with version 1 of the interface knows, which
    /// is also among all.
    #[test]
    fn old_words_are_old() {
        let old = cases(Words::Old);
        for case in &old {
            for &word in &case.words {
                if let Ok(Instruction::Narrow { bits, .. }) = decode(FULL, word) {
                    assert_eq!(bits, UQRSHRNB);
                }
            }
        }
        let names =
            |cases: Vec<Case>| -> Vec<String> { cases.into_iter().map(|case| case.name).collect() };
        let (old, all) = (names(old), names(cases(Words::All)));
        assert!(old.iter().all(|name| all.contains(name)));
        // 15 words at three sizes, run and stepped.
        assert_eq!(all.len() - old.len(), 15 * 3 * 2);
        assert!(all.contains(&"SQRSHRNT H".to_string()));
        assert!(old.contains(&"step: UQRSHRNB S".to_string()));
    }
}
