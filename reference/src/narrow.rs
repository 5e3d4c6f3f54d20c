//! The narrowing family: document 004's layout with bits 13:10 as the fields
//! op, U, R and T (document 02, request 1).

use crate::bits::{element, set_element};

/// The four bits of a word, as one number op:U:R:T from 0 to 15.
#[derive(Clone, Copy, Debug, PartialEq, Eq)]
pub struct Kind {
    pub op: bool,
    pub u: bool,
    /// Rounds.
    pub r: bool,
    /// Writes the odd elements and keeps the even ones.
    pub t: bool,
}

impl Kind {
    pub fn from_number(bits: u32) -> Kind {
        Kind {
            op: bits & 8 != 0,
            u: bits & 4 != 0,
            r: bits & 2 != 0,
            t: bits & 1 != 0,
        }
    }
}

/// One element of 2·size bits narrowed to `size` bits. All sums are of whole
/// numbers: an element has at most 64 bits, far from what an i128 holds.
pub fn narrow_element(kind: Kind, size: u32, shift: u32, x: u128) -> u128 {
    let mut sum = if kind.u {
        x as i128
    } else {
        as_signed(x, 2 * size)
    };
    if kind.r {
        sum += 1 << (shift - 1);
    }
    // Euclid's quotient by a positive number goes towards minus infinity.
    let quotient = sum.div_euclid(1 << shift);
    let values = 1i128 << size;
    let result = match (kind.op, kind.u) {
        (false, false) | (true, true) => quotient.clamp(0, values - 1),
        // The low half is kept below, for every kind alike.
        (false, true) => quotient,
        (true, false) => quotient.clamp(-values / 2, values / 2 - 1),
    };
    result.rem_euclid(values) as u128
}

/// A number of `width` bits read as two's complement.
fn as_signed(x: u128, width: u32) -> i128 {
    let values = 1i128 << width;
    if x as i128 >= values / 2 {
        x as i128 - values
    } else {
        x as i128
    }
}

/// The destination after a word: `source` is Zn and `old` is Zd before it.
pub fn narrow(
    bits: u32,
    source: &[bool],
    old: &[bool],
    size: u32,
    shift: u32,
    vl: u32,
) -> Vec<bool> {
    let kind = Kind::from_number(bits);
    let wide = 2 * size as usize;
    let mut result = if kind.t {
        old.to_vec()
    } else {
        vec![false; vl as usize]
    };
    for e in 0..vl as usize / wide {
        let value = narrow_element(kind, size, shift, element(source, e, wide));
        set_element(
            &mut result,
            2 * e + usize::from(kind.t),
            size as usize,
            value,
        );
    }
    result
}

#[cfg(test)]
mod tests {
    use super::*;

    const SQSHRUN: u32 = 0b0000;
    const SQRSHRUN: u32 = 0b0010;
    const SHRN: u32 = 0b0100;
    const RSHRN: u32 = 0b0110;
    const SQSHRN: u32 = 0b1000;
    const SQRSHRN: u32 = 0b1010;
    const UQSHRN: u32 = 0b1100;
    const UQRSHRN: u32 = 0b1110;

    /// Word, size, shift, element, result; each worked out by hand. T has no
    /// part in it.
    fn check(rows: &[(u32, u32, u32, u128, u128)]) {
        for &(bits, size, shift, x, expected) in rows {
            for t in 0..2 {
                let kind = Kind::from_number(bits + t);
                let found = narrow_element(kind, size, shift, x);
                assert_eq!(found, expected, "{bits:04b} {size} {shift} {x:x}");
            }
        }
    }

    #[test]
    fn the_bits_are_op_u_r_t() {
        let kind = |op, u, r, t| Kind { op, u, r, t };
        assert_eq!(Kind::from_number(8), kind(true, false, false, false));
        assert_eq!(Kind::from_number(4), kind(false, true, false, false));
        assert_eq!(Kind::from_number(2), kind(false, false, true, false));
        assert_eq!(Kind::from_number(1), kind(false, false, false, true));
    }

    /// -1 halved is -1 towards minus infinity; rounded, the tie goes up to 0.
    #[test]
    fn minus_one() {
        check(&[
            (SQSHRN, 8, 1, 0xffff, 0xff),
            (SQRSHRN, 8, 1, 0xffff, 0),
            (SQSHRN, 8, 8, 0xffff, 0xff),
            (SQRSHRN, 8, 8, 0xffff, 0),
            (SQSHRUN, 8, 1, 0xffff, 0),
            (SQRSHRUN, 8, 1, 0xffff, 0),
            (SQSHRN, 16, 16, 0xffff_ffff, 0xffff),
            (SQSHRN, 32, 32, u64::MAX.into(), 0xffff_ffff),
            (SQRSHRN, 32, 32, u64::MAX.into(), 0),
            (SQSHRUN, 32, 1, u64::MAX.into(), 0),
        ]);
    }

    /// Ties on both sides of 0 go towards plus infinity.
    #[test]
    fn ties_go_up() {
        check(&[
            // 1.5 and -1.5, 2.5 and -2.5
            (SQRSHRN, 8, 1, 0x0003, 2),
            (SQRSHRN, 8, 1, 0xfffd, 0xff),
            (SQRSHRN, 8, 1, 0x0005, 3),
            (SQRSHRN, 8, 1, 0xfffb, 0xfe),
            // just below and at -0.5 by 256
            (SQRSHRN, 8, 8, 0xff7f, 0xff),
            (SQRSHRN, 8, 8, 0xff80, 0),
            (SQSHRN, 8, 8, 0xff80, 0xff),
            (SQRSHRUN, 8, 8, 0x007f, 0),
            (SQRSHRUN, 8, 8, 0x0080, 1),
            (RSHRN, 8, 8, 0x007f, 0),
            (RSHRN, 8, 8, 0x0080, 1),
        ]);
    }

    #[test]
    fn signed_to_signed() {
        check(&[
            (SQRSHRN, 8, 8, 0x7fff, 0x7f), // cut from 128
            (SQSHRN, 8, 8, 0x7fff, 0x7f),  // not cut
            (SQRSHRN, 8, 8, 0x7f7f, 0x7f), // not cut
            (SQRSHRN, 8, 8, 0x8000, 0x80), // -128, not cut
            (SQSHRN, 8, 1, 0x00ff, 0x7f),
            (SQSHRN, 8, 1, 0x0100, 0x7f),  // cut from 128
            (SQSHRN, 8, 1, 0xff00, 0x80),  // -128
            (SQSHRN, 8, 1, 0xfeff, 0x80),  // cut from -129
            (SQRSHRN, 8, 1, 0xfeff, 0x80), // -128.5 rounds to -128
            (SQRSHRN, 8, 1, 0xfefe, 0x80), // cut from -129
            (SQSHRN, 16, 16, 0x8000_0000, 0x8000),
            (SQSHRN, 16, 15, 0x8000_0000, 0x8000), // cut from -65536
        ]);
    }

    #[test]
    fn signed_to_unsigned() {
        check(&[
            (SQRSHRUN, 8, 8, 0x7fff, 0x80), // 128 is in the range
            (SQSHRUN, 8, 8, 0x7fff, 0x7f),
            (SQRSHRUN, 8, 8, 0xff7f, 0), // cut from -1
            (SQSHRUN, 8, 8, 0x8000, 0),  // cut from -128
            (SQSHRUN, 8, 1, 0x01ff, 0xff),
            (SQSHRUN, 8, 1, 0x0200, 0xff),  // cut from 256
            (SQRSHRUN, 8, 1, 0x01ff, 0xff), // cut from 256
            (SQRSHRUN, 8, 1, 0x01fe, 0xff),
            (SQSHRUN, 8, 1, 0x7fff, 0xff),
        ]);
    }

    /// Nothing is cut: only the low half is kept, and a carry past it is lost.
    #[test]
    fn the_low_half() {
        check(&[
            (SHRN, 8, 1, 0xffff, 0xff),
            (RSHRN, 8, 1, 0xffff, 0), // 8000
            (SHRN, 8, 8, 0xff80, 0xff),
            (RSHRN, 8, 8, 0xff80, 0), // 100
            (RSHRN, 8, 8, 0xff7f, 0xff),
            (SHRN, 8, 4, 0x1234, 0x23),
            (RSHRN, 8, 4, 0x1238, 0x24),
            (SHRN, 16, 4, 0x1234_5678, 0x4567),
            (SHRN, 32, 4, 0x0123_4567_89ab_cdef, 0x789a_bcde),
            (RSHRN, 32, 4, 0x0123_4567_89ab_cdef, 0x789a_bcdf),
            (SHRN, 32, 32, u64::MAX.into(), 0xffff_ffff),
            (RSHRN, 32, 32, u64::MAX.into(), 0),
            (RSHRN, 32, 1, u64::MAX.into(), 0),
        ]);
    }

    /// Document 01's points 4 and 5, and the same without rounding.
    #[test]
    fn unsigned_to_unsigned() {
        check(&[
            (UQRSHRN, 8, 8, 0x007f, 0),
            (UQRSHRN, 8, 8, 0x0080, 1),
            (UQRSHRN, 8, 8, 0xff7f, 255),
            (UQRSHRN, 8, 8, 0xff80, 255), // cut from 256
            (UQSHRN, 8, 8, 0x00ff, 0),
            (UQSHRN, 8, 8, 0xffff, 255), // not cut
            (UQSHRN, 8, 1, 0x0200, 255), // cut from 256
            (UQRSHRN, 32, 1, u64::MAX.into(), u32::MAX.into()),
            (UQSHRN, 32, 1, u64::MAX.into(), u32::MAX.into()),
            (UQRSHRN, 32, 32, u64::MAX.into(), u32::MAX.into()),
        ]);
    }

    /// The greatest and the least of 64 bits, where a sum may want a 65th.
    #[test]
    fn ends_of_64_bits() {
        let greatest = i64::MAX as u128;
        let least = 1u128 << 63;
        check(&[
            (SQRSHRN, 32, 1, greatest, 0x7fff_ffff),
            (SQRSHRN, 32, 32, greatest, 0x7fff_ffff), // cut from 2^31
            (SQSHRN, 32, 32, greatest, 0x7fff_ffff),
            (SQRSHRUN, 32, 1, greatest, 0xffff_ffff),
            (SQRSHRUN, 32, 32, greatest, 0x8000_0000),
            (SQSHRUN, 32, 32, greatest, 0x7fff_ffff),
            (RSHRN, 32, 1, greatest, 0), // 2^62
            (RSHRN, 32, 32, greatest, 0x8000_0000),
            (UQRSHRN, 32, 32, greatest, 0x8000_0000),
            (SQRSHRN, 32, 1, least, 0x8000_0000),  // cut
            (SQRSHRN, 32, 32, least, 0x8000_0000), // not cut
            (SQRSHRUN, 32, 1, least, 0),
            (SQRSHRUN, 32, 32, least, 0),
            (SHRN, 32, 32, least, 0x8000_0000),
            (UQSHRN, 32, 32, least, 0x8000_0000),
        ]);
    }

    fn row(elements: &[u128], size: usize) -> Vec<bool> {
        let mut bits = vec![false; elements.len() * size];
        for (e, &value) in elements.iter().enumerate() {
            set_element(&mut bits, e, size, value);
        }
        bits
    }

    /// B clears the odd elements; T keeps the even ones, also of its source.
    #[test]
    fn elements_written_and_kept() {
        let source = row(&[0x0100, 0x0200, 0x0300, 0x04ff, 0, 0, 0, 0], 16);
        let old = row(&[0xaa; 16], 8);
        let b = narrow(UQSHRN, &source, &old, 8, 8, 128);
        let expected = [1, 0, 2, 0, 3, 0, 4, 0, 0, 0, 0, 0, 0, 0, 0, 0];
        assert_eq!(b, row(&expected, 8));
        let t = narrow(UQSHRN + 1, &source, &old, 8, 8, 128);
        let expected = [
            0xaa, 1, 0xaa, 2, 0xaa, 3, 0xaa, 4, 0xaa, 0, 0xaa, 0, 0xaa, 0, 0xaa, 0,
        ];
        assert_eq!(t, row(&expected, 8));
        let in_place = narrow(UQSHRN + 1, &source, &source, 8, 8, 128);
        let expected = [0, 1, 0, 2, 0, 3, 0xff, 4, 0, 0, 0, 0, 0, 0, 0, 0];
        assert_eq!(in_place, row(&expected, 8));
    }
}
