//! Sources for the narrowing words: elements near a tie and near the ends of
//! what a result can be, on both sides of 0. And for PSEL: an index register that
//! the offset brings near 2^32.

use reference::decode::decode;
use reference::instruction::Instruction;
use reference::machine::{Machine, Z_FILE_BYTES, Z_SLOT_BYTES};
use reference::random::Random;
use reference::setting::FULL;

/// Fills the source of a narrowing word and the index register of PSEL; other
/// words have none of these.
pub fn fill_source(random: &mut Random, word: u32, machine: &mut Machine) {
    match decode(FULL, word) {
        Ok(Instruction::Narrow {
            size, shift, zn, ..
        }) if machine.z.len() == Z_FILE_BYTES => {
            let slot = zn as usize * Z_SLOT_BYTES;
            let bytes = size as usize / 4;
            for element in machine.z[slot..slot + Z_SLOT_BYTES].chunks_exact_mut(bytes) {
                let value = near_an_edge(random, size, shift);
                element.copy_from_slice(&value.to_le_bytes()[..bytes]);
            }
        }
        Ok(Instruction::Psel { offset, index, .. }) => {
            machine.w[index as usize - 12] = near_the_wrap(random, offset);
        }
        _ => {}
    }
}

/// Its sum with the offset is 2^32 - 1 or more; or it is 0 or 1.
fn near_the_wrap(random: &mut Random, offset: u32) -> u32 {
    random.below(offset + 3).wrapping_sub(offset + 1)
}

/// Its quotient is near 0 or an end of the results with or without a sign, and
/// its rest near 0 or one half; or it is near an end of its own type.
fn near_an_edge(random: &mut Random, size: u32, shift: u32) -> u64 {
    let off = |random: &mut Random| u64::from(random.below(5)).wrapping_sub(2);
    let around = match random.below(8) {
        0 => 1 << (2 * size - 1),
        1 => 0,
        _ => {
            let end = random.pick(&[0, 1 << (size - 1), 1 << size]);
            let quotient = off(random).wrapping_add(end) << shift;
            quotient.wrapping_add(random.pick(&[0, 1 << (shift - 1)]))
        }
    };
    let value = around.wrapping_add(off(random));
    if random.coin() {
        value
    } else {
        value.wrapping_neg()
    }
}

#[cfg(test)]
mod tests {
    use super::*;
    use std::collections::BTreeSet;

    use reference::narrow::{Kind, narrow_element};
    use reference::samples::{narrow_word, psel_word};

    /// Of the elements for each word, some are cut at each end that it has and
    /// some are just not, and rounding makes a difference.
    #[test]
    fn every_edge_comes() {
        let mut random = Random::new(3);
        for (size, shift) in [(8, 1), (8, 8), (16, 7), (32, 1), (32, 32)] {
            let word = narrow_word(10, 2 * size - shift, 5, 6);
            let mut machine = Machine::zero();
            fill_source(&mut random, word, &mut machine);
            assert!(machine.z[..5 * Z_SLOT_BYTES].iter().all(|&byte| byte == 0));
            let mut results = Vec::new();
            for _ in 0..5_000 {
                let mask = u64::MAX >> (64 - 2 * size);
                let x = u128::from(near_an_edge(&mut random, size, shift) & mask);
                let of = |bits| narrow_element(Kind::from_number(bits), size, shift, x);
                results.push([of(8), of(10), of(0), of(12)]);
            }
            let half = 1 << (size - 1);
            let has = |place: usize, value: u128| results.iter().any(|r| r[place] == value);
            for value in [0, 1, half - 2, half - 1, half, half + 1, 2 * half - 1] {
                assert!(has(0, value) && has(1, value), "{size} {shift} {value}");
            }
            for value in [0, 1, 2 * half - 2, 2 * half - 1] {
                assert!(has(3, value), "{size} {shift} {value}");
            }
            assert!(results.iter().any(|r| r[0] != r[1]));
            assert!(results.iter().any(|r| r[2] == 0 && r[3] != 0));
        }
    }

    /// Every sum from 2^32 - 1 up, and those of W 0 and 1.
    #[test]
    fn every_sum_at_the_wrap_comes() {
        let mut random = Random::new(4);
        let word = psel_word(0b01101, 2, 3, 4, 5); // size 8, offset 6, by W14
        let mut sums = BTreeSet::new();
        for _ in 0..1_000 {
            let mut machine = Machine::zero();
            fill_source(&mut random, word, &mut machine);
            let [w12, w13, w14, w15] = machine.w;
            assert_eq!([w12, w13, w15], [0; 3]);
            sums.insert(u64::from(w14) + 6);
        }
        let wrap = 1 << 32;
        assert!(
            sums.into_iter()
                .eq([6, 7].into_iter().chain(wrap - 1..wrap + 6))
        );
    }
}
