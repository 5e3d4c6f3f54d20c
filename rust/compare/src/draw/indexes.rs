//! Questions to PSEL's index unit: W near 0, 2^31 and 2^32, and of the sizes and
//! offsets some that no word has.

use reference::random::Random;
use reference::setting::VECTOR_LENGTHS;
use reference::values::FIELD_VALUES;

use super::one_in;
use super::settings::length_of_no_vector;
use crate::case::IndexQuestion;

const SIZES: [u32; 4] = [8, 16, 32, 64];

/// Each of VL, size and offset is allowed seven times in eight.
pub fn index_question(random: &mut Random) -> IndexQuestion {
    let mut vl = random.pick(&VECTOR_LENGTHS);
    let mut size = random.pick(&SIZES);
    let mut offset = random.below(128 / size);
    if one_in(random, 8) {
        vl = length_of_no_vector(random, vl);
    }
    if one_in(random, 8) {
        offset = match random.below(3) {
            0 => 128 / size + random.below(2),
            1 => random.pick(&FIELD_VALUES),
            _ => offset ^ 1 << random.below(32),
        };
    }
    if one_in(random, 8) {
        size = match random.below(3) {
            0 => random.pick(&FIELD_VALUES),
            1 => size ^ 1 << random.below(32),
            _ => random.below(130),
        };
    }
    let w = index_register(random);
    IndexQuestion {
        vl,
        size,
        offset,
        w,
    }
}

/// As far from 0, 2^31 or 2^32 as an offset reaches, and a little more; or any.
fn index_register(random: &mut Random) -> u32 {
    if one_in(random, 4) {
        return random.next_u32();
    }
    let middle = random.pick(&[0, 0, 1 << 31]);
    random.below(36).wrapping_sub(18).wrapping_add(middle)
}

#[cfg(test)]
mod tests {
    use super::*;
    use std::collections::BTreeSet;

    /// Every offset of every size, with each sum around the wrap; and offsets just
    /// out of range.
    #[test]
    fn every_sum_at_the_wrap_comes_with_every_offset() {
        let mut random = Random::new(5);
        let mut sums = BTreeSet::new();
        let mut just_outside = BTreeSet::new();
        for _ in 0..200_000 {
            let question = index_question(&mut random);
            let IndexQuestion {
                size, offset, w, ..
            } = question;
            if SIZES.contains(&size) {
                sums.insert((size, offset, u64::from(w) + u64::from(offset)));
                if offset == 128 / size {
                    just_outside.insert(size);
                }
            }
        }
        for size in SIZES {
            for offset in 0..128 / size {
                for sum in (1 << 32) - 2..(1 << 32) + u64::from(offset) {
                    assert!(sums.contains(&(size, offset, sum)), "{size} {offset} {sum}");
                }
            }
        }
        assert!(just_outside.into_iter().eq(SIZES));
    }
}
