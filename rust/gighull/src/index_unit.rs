//! PSEL's index unit: an adder of 32 bits and a mask.

use crate::{Answer, Refusal, ffi};

/// What the unit makes of a W and an offset.
#[derive(Clone, Copy, Debug, PartialEq, Eq, Hash)]
pub struct IndexUnit {
    /// the low 32 bits of W + offset: the adder wraps
    pub sum: u32,
    /// VL/size - 1
    pub mask: u32,
    /// (W + offset) mod (VL/size), which is sum AND mask
    pub index: u32,
}

/// Which element of Pm a PSEL word reads, by its size and offset and what its W
/// register holds: [`Refusal::Setting`] for a VL that is not allowed, then
/// [`Refusal::Range`] for a size or an offset that no PSEL word has.
///
/// ```
/// use gighull::{IndexUnit, Refusal, psel_index};
/// let wrapped = IndexUnit { sum: 0, mask: 7, index: 0 };
/// assert_eq!(psel_index(128, 16, 1, 0xffff_ffff), Ok(wrapped));
/// let last = IndexUnit { sum: 0xffff_ffff, mask: 15, index: 15 };
/// assert_eq!(psel_index(256, 16, 0, 0xffff_ffff), Ok(last));
/// assert_eq!(psel_index(129, 16, 0, 0), Err(Refusal::Setting));
/// assert_eq!(psel_index(256, 16, 8, 0), Err(Refusal::Range));
/// ```
pub fn psel_index(vl: u32, size: u32, offset: u32, w: u32) -> Answer<IndexUnit> {
    let (mut sum, mut mask, mut index) = (0, 0, 0);
    let number = ffi::psel_index(vl, size, offset, w, &mut sum, &mut mask, &mut index);
    Refusal::answer(number).map(|()| IndexUnit { sum, mask, index })
}
