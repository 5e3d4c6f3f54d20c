//! PSEL's index, and the numbers of the hardware lab's index unit
//! (document 02, request 5): a 32-bit adder and a mask.
//!
//! The index is document 01's, (W + offset) mod (VL/size), and is not made
//! from the sum and the mask: that it is the low bits of the sum is for the
//! tests to show.

use crate::encode::psel_offset_in_range;
use crate::refusal::Refusal;
use crate::setting::vl_is_allowed;

#[derive(Clone, Copy, Debug, PartialEq, Eq)]
pub struct IndexUnit {
    /// What 32 bits keep of W + offset.
    pub sum: u32,
    /// VL/size − 1.
    pub mask: u32,
    /// (W + offset) mod (VL/size).
    pub index: u32,
}

/// Refuses with 1 for `vl`, then with 9 for `size` or `offset`, whose ranges
/// are document 01's for writing the word. Any `u32` may be given for each.
pub fn index_unit(vl: u32, size: u32, offset: u32, w: u32) -> Result<IndexUnit, Refusal> {
    if !vl_is_allowed(vl) {
        return Err(Refusal::Setting);
    }
    if !psel_offset_in_range(size, offset) {
        return Err(Refusal::Range);
    }
    Ok(IndexUnit {
        sum: (whole_sum(offset, w) % (1 << 32)) as u32,
        mask: vl / size - 1,
        index: element_index(vl, size, offset, w),
    })
}

/// The element that PSEL reads, for a length, size and offset in range.
pub fn element_index(vl: u32, size: u32, offset: u32, w: u32) -> u32 {
    (whole_sum(offset, w) % u64::from(vl / size)) as u32
}

/// A sum of whole numbers, which 32 bits need not hold.
fn whole_sum(offset: u32, w: u32) -> u64 {
    u64::from(w) + u64::from(offset)
}

#[cfg(test)]
mod tests {
    use super::*;
    use crate::random::Random;
    use crate::setting::VECTOR_LENGTHS;
    use crate::values::LENGTHS_NOT_ALLOWED;

    /// The sizes, each with its greatest offset.
    const SIZES: [(u32, u32); 4] = [(8, 15), (16, 7), (32, 3), (64, 1)];

    /// A length, a size and the number of the last element.
    const LAST_ELEMENTS: [(u32, u32, u32); 20] = [
        (128, 8, 15),
        (128, 16, 7),
        (128, 32, 3),
        (128, 64, 1),
        (256, 8, 31),
        (256, 16, 15),
        (256, 32, 7),
        (256, 64, 3),
        (512, 8, 63),
        (512, 16, 31),
        (512, 32, 15),
        (512, 64, 7),
        (1024, 8, 127),
        (1024, 16, 63),
        (1024, 32, 31),
        (1024, 64, 15),
        (2048, 8, 255),
        (2048, 16, 127),
        (2048, 32, 63),
        (2048, 64, 31),
    ];

    fn accepted(sum: u32, mask: u32, index: u32) -> Result<IndexUnit, Refusal> {
        Ok(IndexUnit { sum, mask, index })
    }

    /// Document 01's starred case 10: 252c4000 has size 8 and offset 1;
    /// 25e04000 has size 64 and offset 1.
    #[test]
    fn point_10() {
        assert_eq!(index_unit(128, 8, 1, 0xffff_ffff), accepted(0, 15, 0));
        assert_eq!(index_unit(128, 64, 1, 0), accepted(1, 1, 1));
    }

    /// The whole sums are 2^32 and a little more, and 32 bits keep the little.
    #[test]
    fn sums_that_wrap() {
        for (vl, size, offset, w, sum, mask, index) in [
            (128, 8, 15, 0xffff_ffff, 14, 15, 14),
            (128, 16, 7, 0xffff_fffc, 3, 7, 3),
            (128, 32, 3, 0xffff_ffff, 2, 3, 2),
            (128, 64, 1, 0xffff_ffff, 0, 1, 0),
            (256, 8, 8, 0xffff_fffd, 5, 31, 5),
            (256, 16, 7, 0xffff_ffff, 6, 15, 6),
            (256, 32, 2, 0xffff_ffff, 1, 7, 1),
            (256, 64, 1, 0xffff_ffff, 0, 3, 0),
            (512, 8, 15, 0xffff_fff1, 0, 63, 0),
            (512, 16, 6, 0xffff_fffb, 1, 31, 1),
            (512, 32, 3, 0xffff_fffe, 1, 15, 1),
            (512, 64, 1, 0xffff_ffff, 0, 7, 0),
            (1024, 8, 14, 0xffff_ffff, 13, 127, 13),
            (1024, 16, 5, 0xffff_ffff, 4, 63, 4),
            (1024, 32, 3, 0xffff_fffd, 0, 31, 0),
            (1024, 64, 1, 0xffff_ffff, 0, 15, 0),
            (2048, 8, 15, 0xffff_ffff, 14, 255, 14),
            (2048, 16, 7, 0xffff_fffa, 1, 127, 1),
            (2048, 32, 3, 0xffff_ffff, 2, 63, 2),
            (2048, 64, 1, 0xffff_ffff, 0, 31, 0),
        ] {
            let answer = index_unit(vl, size, offset, w);
            assert_eq!(answer, accepted(sum, mask, index), "{vl} {size}");
        }
    }

    /// The greatest sum that does not wrap, with an offset and without, gives
    /// the last element; the sum 0 gives the first.
    #[test]
    fn sums_just_below_the_wrap() {
        for (vl, size, last) in LAST_ELEMENTS {
            for (offset, w) in [(0, 0xffff_ffff), (1, 0xffff_fffe)] {
                let answer = index_unit(vl, size, offset, w);
                assert_eq!(answer, accepted(0xffff_ffff, last, last), "{vl} {size}");
            }
            assert_eq!(index_unit(vl, size, 0, 0), accepted(0, last, 0));
        }
        assert_eq!(
            index_unit(128, 8, 15, 0xffff_fff0),
            accepted(0xffff_ffff, 15, 15)
        );
    }

    /// One W and offset at several lengths: 20 is 16 + 4; 1007 is 125·8 + 7,
    /// 62·16 + 15, 31·32 + 15, 15·64 + 47 and 7·128 + 111.
    #[test]
    fn the_length_decides() {
        assert_eq!(index_unit(128, 8, 0, 17), accepted(17, 15, 1));
        assert_eq!(index_unit(2048, 8, 0, 17), accepted(17, 255, 17));
        assert_eq!(index_unit(128, 8, 3, 17), accepted(20, 15, 4));
        assert_eq!(index_unit(256, 8, 3, 17), accepted(20, 31, 20));
        assert_eq!(index_unit(2048, 8, 3, 17), accepted(20, 255, 20));
        for (vl, mask, index) in [
            (128, 7, 7),
            (256, 15, 15),
            (512, 31, 15),
            (1024, 63, 47),
            (2048, 127, 111),
        ] {
            assert_eq!(index_unit(vl, 16, 7, 1000), accepted(1007, mask, index));
        }
    }

    #[test]
    fn lengths_refused_before_anything_else() {
        for vl in LENGTHS_NOT_ALLOWED {
            for (size, offset) in [(8, 0), (8, 16), (64, 2), (0, 0), (7, u32::MAX)] {
                for w in [0, u32::MAX] {
                    let refused = index_unit(vl, size, offset, w).unwrap_err();
                    assert_eq!(refused.number(), 1, "{vl} {size} {offset}");
                }
            }
        }
    }

    #[test]
    fn sizes_and_offsets_refused() {
        for vl in VECTOR_LENGTHS {
            for w in [0, u32::MAX] {
                for size in [
                    0,
                    1,
                    2,
                    4,
                    7,
                    9,
                    24,
                    63,
                    65,
                    128,
                    256 + 8,
                    65536 + 8,
                    (1 << 31) + 64,
                    u32::MAX,
                ] {
                    let refused = index_unit(vl, size, 0, w).unwrap_err();
                    assert_eq!(refused.number(), 9, "{vl} {size}");
                }
                for (size, most) in SIZES {
                    assert!(index_unit(vl, size, most, w).is_ok(), "{vl} {size}");
                    for offset in [most + 1, 256, 65536, 1 << 31, u32::MAX] {
                        let refused = index_unit(vl, size, offset, w).unwrap_err();
                        assert_eq!(refused.number(), 9, "{vl} {size} {offset}");
                    }
                }
            }
        }
    }

    /// What the lab asks (document 02, request 5): the low bits of the 32-bit
    /// sum, those of the mask, are the index.
    #[test]
    fn the_low_bits_of_the_sum_are_the_index() {
        let mut random = Random::new(5);
        let mut bases: Vec<u32> = (0..300).collect();
        bases.extend((1 << 31) - 300..(1 << 31) + 300);
        bases.extend(u32::MAX - 300..=u32::MAX);
        bases.extend((0..300).map(|_| random.next_u32()));
        let mut wrapped = 0;
        for vl in VECTOR_LENGTHS {
            for (size, most) in SIZES {
                for offset in 0..=most {
                    for &w in &bases {
                        let unit = index_unit(vl, size, offset, w).unwrap();
                        let low = unit.sum & unit.mask;
                        assert_eq!(low, unit.index, "{vl} {size} {offset} {w:x}");
                        assert_eq!(unit.sum, w.wrapping_add(offset));
                        wrapped += u32::from(unit.sum < w);
                    }
                }
            }
        }
        // An offset o wraps o of the W next to 2^32: 120 + 28 + 6 + 1 at each
        // length. No random W is that near.
        assert_eq!(wrapped, 5 * 155);
    }
}
