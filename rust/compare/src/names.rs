//! The words by their names in a listing, to count them by.

use reference::instruction::{Instruction, NARROW_NAMES};
use reference::layout::Row;

/// How many rows are one name each: all but the narrowing words'.
const SINGLE: usize = Row::ALL.len() - 1;

/// A number for each name.
pub type Counts = [u64; SINGLE + NARROW_NAMES.len()];

/// Counts a word.
#[inline]
pub fn count(instruction: Instruction, counts: &mut Counts) {
    let place = match instruction {
        Instruction::Narrow { bits, .. } => SINGLE + bits as usize,
        other => other.row() as usize,
    };
    counts[place] += 1;
}

pub fn add(counts: &mut Counts, more: &Counts) {
    for (sum, count) in counts.iter_mut().zip(more) {
        *sum += count;
    }
}

/// `PEXT1 5, PEXT2 7, ..`
pub fn shown(counts: &Counts) -> String {
    let single = Row::ALL[..SINGLE].iter().map(|row| row.name());
    let names = single.chain(NARROW_NAMES);
    let shown: Vec<String> = names
        .zip(counts)
        .map(|(name, count)| format!("{name} {count}"))
        .collect();
    shown.join(", ")
}

#[cfg(test)]
mod tests {
    use super::*;
    use reference::decode::decode;
    use reference::random::Random;
    use reference::samples::matching_word;
    use reference::setting::FULL;

    #[test]
    fn a_word_is_counted_by_its_own_name() {
        let mut random = Random::new(1);
        for row in Row::ALL {
            for _ in 0..100 {
                let instruction = decode(FULL, matching_word(&mut random, row)).unwrap();
                let mut counts = Counts::default();
                count(instruction, &mut counts);
                let shown = shown(&counts);
                let one: Vec<&str> = shown.split(", ").filter(|c| c.ends_with(" 1")).collect();
                assert_eq!(one, [format!("{} 1", instruction.name())]);
            }
        }
    }
}
