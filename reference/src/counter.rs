//! The predicate-as-counter and its expansion to a mask.

use crate::bits;

/// The low 16 bits of a P register, read as a counter. It is a type of its
/// own: the only way from here to a mask is `expand`.
#[derive(Clone, Copy, Debug, PartialEq, Eq)]
pub struct Counter(pub u16);

impl Counter {
    /// The counter in a P register of at least 16 bits. Bits from 16 up are
    /// not looked at.
    pub fn in_register(register: &[bool]) -> Counter {
        Counter(bits::element(register, 0, 16) as u16)
    }

    /// The mask of 4·PL bits, PL being VL/8.
    pub fn expand(self, vl: u32) -> Vec<bool> {
        let mask_bits = 4 * (vl / 8);
        let mut mask = vec![false; mask_bits as usize];
        let counter = u32::from(self.0);
        if counter & 0b1111 == 0 {
            return mask; // also where bit 15 is set
        }
        let z = counter.trailing_zeros(); // 0 to 3
        let size = 8 << z; // the counter's own, not the instruction's
        // 2^m = 4·PL; the count is bits m down to z + 1. Bits from m + 1 to
        // 14 are not looked at.
        let m = mask_bits.trailing_zeros();
        let mut count = 0;
        for b in z + 1..=m {
            if counter >> b & 1 == 1 {
                count |= 1 << (b - (z + 1));
            }
        }
        let inverted = counter >> 15 & 1 == 1;
        let elements = 4 * vl / size;
        for e in 0..elements {
            let below = e < count;
            mask[(e * size / 8) as usize] = below != inverted;
        }
        mask
    }
}

#[cfg(test)]
mod tests {
    use super::*;
    use crate::setting::VECTOR_LENGTHS;

    fn true_bits(counter: u16, vl: u32) -> Vec<usize> {
        let mask = Counter(counter).expand(vl);
        assert_eq!(mask.len(), vl as usize / 2);
        (0..mask.len()).filter(|&b| mask[b]).collect()
    }

    #[test]
    fn low_nibble_zero_is_all_false() {
        for vl in VECTOR_LENGTHS {
            for counter in [0, 0x8000, 0xfff0, 0x7ff0, 0x0010] {
                assert_eq!(true_bits(counter, vl), []);
            }
        }
    }

    #[test]
    fn inverted_zero_is_all_true_at_its_own_size() {
        for vl in VECTOR_LENGTHS {
            for (counter, stride) in [(0x8001, 1), (0x8002, 2), (0x8004, 4), (0x8008, 8)] {
                let expected: Vec<usize> = (0..vl as usize / 2).step_by(stride).collect();
                assert_eq!(true_bits(counter, vl), expected);
                assert_eq!(true_bits(counter & 0x7fff, vl), []);
            }
        }
    }

    #[test]
    fn the_greatest_count_leaves_out_the_last_element() {
        for vl in VECTOR_LENGTHS {
            for z in 0..4 {
                // Every bit above the size's, the ignored ones too.
                let counter = 0x7fff & !((1 << z) - 1);
                let stride = 1 << z;
                let all: Vec<usize> = (0..vl as usize / 2).step_by(stride).collect();
                let (last, others) = all.split_last().unwrap();
                assert_eq!(true_bits(counter, vl), others);
                assert_eq!(true_bits(counter | 0x8000, vl), [*last]);
            }
        }
    }

    #[test]
    fn ignored_bits_change_nothing() {
        for vl in VECTOR_LENGTHS {
            let m = (vl / 2).trailing_zeros();
            for b in 4..15 {
                for counter in [0x0001, 0x0006, 0x800c, 0x0008] {
                    let same = true_bits(counter | 1 << b, vl) == true_bits(counter, vl);
                    assert_eq!(same, b > m, "bit {b} at {vl}");
                }
            }
        }
    }
}
