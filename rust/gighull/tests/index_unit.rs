//! PSEL's index unit against the reference: every size, length and offset, W near
//! its ends and at random, and refusals.

use gighull::{ffi, psel_index};
use reference::index_unit::index_unit;
use reference::random::Random;
use reference::refusal::number_of;
use reference::setting::VECTOR_LENGTHS;
use reference::values::{FIELD_VALUES, LENGTHS_NOT_ALLOWED};

/// The number and the three that come with it, over the C interface and by this
/// crate, are the reference's, and zeros where it refuses. Answers the number.
fn same(vl: u32, size: u32, offset: u32, w: u32) -> u32 {
    let asked = format!("VL {vl}, size {size}, offset {offset}, W {w:08x}");
    let answer = index_unit(vl, size, offset, w);
    let number = number_of(&answer);
    let expected = answer.map_or([0; 3], |unit| [unit.sum, unit.mask, unit.index]);
    let [mut sum, mut mask, mut index] = [77; 3];
    let found = ffi::psel_index(vl, size, offset, w, &mut sum, &mut mask, &mut index);
    assert_eq!((found, [sum, mask, index]), (number, expected), "{asked}");
    let found = match psel_index(vl, size, offset, w) {
        Ok(unit) => (0, [unit.sum, unit.mask, unit.index]),
        Err(refusal) => (refusal.number(), [0; 3]),
    };
    assert_eq!(found, (number, expected), "{asked}");
    number
}

/// W near 0, 2^31 and 2^32, then at random.
fn values_of_w() -> Vec<u32> {
    let near = |middle: u32| (0..600).map(move |n: u32| middle.wrapping_add(n).wrapping_sub(300));
    let mut random = Random::new(68);
    let mut values: Vec<u32> = near(0).chain(near(1 << 31)).collect();
    values.extend((0..600).map(|_| random.next_u32()));
    values
}

#[test]
fn every_offset_at_every_size_and_length() {
    let values = values_of_w();
    let mut wrapped = 0;
    for vl in VECTOR_LENGTHS {
        for size in [8, 16, 32, 64] {
            for offset in 0..128 / size {
                for &w in &values {
                    assert_eq!(same(vl, size, offset, w), 0);
                    wrapped += u32::from(w.checked_add(offset).is_none());
                }
            }
        }
    }
    // Of offset o, W above 2^32 - 1 - o: 120 + 28 + 6 + 1 at each length.
    assert_eq!(wrapped, 5 * 155);
}

/// A VL first, then a size or an offset, each near its range and far from it.
#[test]
fn refusals() {
    let mut counts = [0; 10];
    for vl in VECTOR_LENGTHS.into_iter().chain(LENGTHS_NOT_ALLOWED) {
        for size in FIELD_VALUES {
            for offset in FIELD_VALUES {
                for w in [0, 5, 1 << 31, u32::MAX] {
                    counts[same(vl, size, offset, w) as usize] += 1;
                }
            }
        }
    }
    let [done, not_allowed, _, _, _, _, _, _, _, out_of_range] = counts;
    let all: u32 = counts.iter().sum();
    assert_eq!(all, done + not_allowed + out_of_range, "{counts:?}");
    assert_eq!(not_allowed, 4 * 20 * 59 * 59);
    assert!(done > 100 && out_of_range > 1000, "{counts:?}");
}
