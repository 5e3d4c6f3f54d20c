//! What the words compute, on rows of bits; nothing here knows the machine.
//!
//! Each function is its paragraph of document 01 in loops, PSEL's that of
//! document 02, request 2, and PEXT's with request 8; the narrowing family has
//! a page of its own, `narrow`. Sizes, portions and shifts are those of a
//! decoded instruction and so are in range.

use crate::bits::{element, set_element};
use crate::counter::Counter;
use crate::index_unit::element_index;

/// So many portions of a counter's mask, from the first on.
pub fn pext(counter: Counter, size: u32, first: u32, portions: u32, vl: u32) -> Vec<Vec<bool>> {
    let mask = counter.expand(vl);
    let mut results = Vec::new();
    for k in 0..portions {
        results.push(portion_of(&mask, size, first + k, vl));
    }
    results
}

/// One portion: elements portion·E to portion·E + E − 1 of the instruction's
/// own size, E being VL/size.
fn portion_of(mask: &[bool], size: u32, portion: u32, vl: u32) -> Vec<bool> {
    let elements = vl / size;
    let mut result = vec![false; vl as usize / 8];
    for e in 0..elements {
        let index = portion * elements + e;
        result[(e * size / 8) as usize] = mask[(index * size / 8) as usize];
    }
    result
}

/// All PL bits of `copied`, where the indexed element of `chooser` is true;
/// else PL zeros.
pub fn psel(
    copied: &[bool],
    chooser: &[bool],
    base: u32,
    offset: u32,
    size: u32,
    vl: u32,
) -> Vec<bool> {
    let index = element_index(vl, size, offset, base);
    let chosen = chooser[(index * size / 8) as usize];
    let mut result = Vec::new();
    // Every bit, also those between elements.
    for &bit in copied {
        result.push(chosen && bit);
    }
    result
}

/// Which of the source's VL/4 indexes destination r takes at element e.
fn luti4_position(size: u32, i1: u32, vl: u32, r: u32, e: u32) -> u32 {
    let elements = vl / size;
    let segments = size / 16;
    let segment = i1 % segments;
    (4 * segment + r) * elements + e
}

/// The four destinations, in order.
pub fn luti4(indexes: &[bool], table: &[bool], size: u32, i1: u32, vl: u32) -> Vec<Vec<bool>> {
    let elements = vl / size;
    let mut destinations = Vec::new();
    for r in 0..4 {
        let mut result = vec![false; vl as usize];
        for e in 0..elements {
            let position = luti4_position(size, i1, vl, r, e);
            let index = element(indexes, position as usize, 4);
            let entry = element(table, index as usize, 32);
            let low_bits = entry % (1 << size);
            set_element(&mut result, e as usize, size as usize, low_bits);
        }
        destinations.push(result);
    }
    destinations
}

#[cfg(test)]
mod tests {
    use super::*;
    use crate::bits::read;
    use crate::setting::VECTOR_LENGTHS;

    /// The sixteen bits of a P register at VL 128.
    fn row(bits: u16) -> Vec<bool> {
        read(&bits.to_le_bytes(), 16)
    }

    /// Size 64, element 1: bit 8 decides, and no bit beside it.
    #[test]
    fn psel_copies_every_bit_or_clears_every_bit() {
        for copied in [0xffff, 0xfefe, 0x0101, 0x8421, 0] {
            for chooser in [0x0100, 0xffff, 0x0180, 0x8100] {
                let result = psel(&row(copied), &row(chooser), 1, 0, 64, 128);
                assert_eq!(result, row(copied), "{copied:04x} {chooser:04x}");
            }
            for chooser in [0, 0xfeff, 0xfefe, 0x0001, 0x0200] {
                let result = psel(&row(copied), &row(chooser), 1, 0, 64, 128);
                assert_eq!(result, row(0), "{copied:04x} {chooser:04x}");
            }
        }
    }

    /// A chooser true, or false, at one element alone tells which is read.
    #[test]
    fn psel_reads_at_the_wrapped_sum() {
        for vl in VECTOR_LENGTHS {
            for size in [8, 16, 32, 64] {
                let elements = vl / size;
                let most = 128 / size - 1;
                for (base, offset, index) in [
                    (0, 0, 0),
                    (0, most, most),
                    (elements - 1, 0, elements - 1),
                    (elements - 1, 1, 0),
                    (elements, most, most),
                    (u32::MAX, 0, elements - 1),
                    (u32::MAX, 1, 0),
                    (u32::MAX, most, most - 1),
                    (u32::MAX - most, most, elements - 1),
                    (u32::MAX - most + 1, most, 0),
                ] {
                    let all = vec![true; vl as usize / 8];
                    for alone in [true, false] {
                        let mut chooser = vec![!alone; vl as usize / 8];
                        chooser[(index * size / 8) as usize] = alone;
                        let result = psel(&all, &chooser, base, offset, size, vl);
                        assert_eq!(result, vec![alone; vl as usize / 8], "{base:x} {offset}");
                    }
                }
            }
        }
    }

    /// Document 02, request 3, by trying all of it: no index lies past the
    /// source's end, and for each size and length one is the source's last.
    #[test]
    fn no_luti4_position_reaches_a_quarter_of_vl() {
        for vl in VECTOR_LENGTHS {
            for size in [16, 32] {
                let mut greatest = 0;
                for i1 in 0..2 {
                    for r in 0..4 {
                        for e in 0..vl / size {
                            let position = luti4_position(size, i1, vl, r, e);
                            assert!(position < vl / 4, "{size} {i1} {vl} {r} {e}: {position}");
                            greatest = greatest.max(position);
                        }
                    }
                }
                assert_eq!(greatest, vl / 4 - 1, "{size} {vl}");
            }
        }
    }
}
