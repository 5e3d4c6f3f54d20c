//! The narrowing words on the vector registers.

use crate::vectors::Vectors;
use crate::word::Narrow;

/// Elements of twice the result's size, shifted right and cut to the result's
/// size. The four bits of the word choose one loop.
pub fn narrow(slots: &mut Vectors, word: &Narrow, vl: usize) {
    // The destination may be the source.
    let source = slots[word.zn];
    let source = &source[..vl / 8];
    let destination = &mut slots[word.zd][..vl / 8];
    let shift = word.shift;

    macro_rules! by_round_and_top {
        ($each:ident, $cut:expr) => {
            match (word.r, word.t) {
                (false, false) => $each::<false, false>(source, destination, shift, $cut),
                (false, true) => $each::<false, true>(source, destination, shift, $cut),
                (true, false) => $each::<true, false>(source, destination, shift, $cut),
                (true, true) => $each::<true, true>(source, destination, shift, $cut),
            }
        };
    }

    macro_rules! by_sign {
        ($signed:ident, $unsigned:ident, $narrow:ty, $narrow_signed:ty) => {
            match (word.op, word.u) {
                (false, false) => {
                    by_round_and_top!($signed, |q| q.clamp(0, <$narrow>::MAX.into()) as $narrow)
                }
                (false, true) => by_round_and_top!($unsigned, |q| q as $narrow),
                (true, false) => by_round_and_top!($signed, |q| {
                    let least = <$narrow_signed>::MIN.into();
                    let greatest = <$narrow_signed>::MAX.into();
                    q.clamp(least, greatest) as $narrow
                }),
                (true, true) => {
                    by_round_and_top!($unsigned, |q| q.min(<$narrow>::MAX.into()) as $narrow)
                }
            }
        };
    }

    match word.size {
        8 => by_sign!(each_i16, each_u16, u8, i8),
        16 => by_sign!(each_i32, each_u32, u16, i16),
        _ => by_sign!(each_i64, each_u64, u32, i32),
    }
}

/// A loop over the elements, read as `$element`; `$wide` has its width and no
/// sign. `R` rounds, `T` writes the odd narrow elements.
macro_rules! each_element {
    ($name:ident, $element:ty, $wide:ty, $narrow:ty) => {
        fn $name<const R: bool, const T: bool>(
            source: &[u8],
            destination: &mut [u8],
            shift: u32,
            cut: impl Fn($element) -> $narrow,
        ) {
            let from = source.as_chunks().0;
            let to = destination.as_chunks_mut().0;
            for (to, &from) in to.iter_mut().zip(from) {
                let x = <$element>::from_le_bytes(from);
                // Rounding adds the last bit shifted out, since
                // x + 2^(shift-1) could wrap.
                let last = if R { x >> (shift - 1) & 1 } else { 0 };
                let result = <$wide>::from(cut((x >> shift) + last));
                // Written at the full width, the odd narrow element is 0.
                let written = if T {
                    let even = <$wide>::from_le_bytes(*to) & <$wide>::from(<$narrow>::MAX);
                    result << <$narrow>::BITS | even
                } else {
                    result
                };
                *to = written.to_le_bytes();
            }
        }
    };
}

each_element!(each_i16, i16, u16, u8);
each_element!(each_u16, u16, u16, u8);
each_element!(each_i32, i32, u32, u16);
each_element!(each_u32, u32, u32, u16);
each_element!(each_i64, i64, u64, u32);
each_element!(each_u64, u64, u64, u32);
