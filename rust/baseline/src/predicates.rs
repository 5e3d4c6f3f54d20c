//! PEXT and PSEL on the predicate registers.

pub const SLOTS: usize = 16;
pub const SLOT_BYTES: usize = 32;

pub type Slot = [u8; SLOT_BYTES];
pub type Predicates = [Slot; SLOTS];

/// One portion of the mask a counter stands for, to `destination`, which has
/// VL/64 bytes.
pub fn pext(counter: u16, size: usize, portion: usize, vl: usize, destination: &mut [u8]) {
    destination.fill(0);
    if counter & 15 == 0 {
        return;
    }
    // The counter's own elements are 2^z bits of the mask each. The count is
    // bits m down to z + 1, 2^m being VL/2.
    let z = counter.trailing_zeros();
    let count = (usize::from(counter) & (vl - 1)) >> (z + 1);
    let inverted = counter >> 15 == 1;
    let step = size / 8;
    let elements = vl / size;
    for e in 0..elements {
        let bit = (portion * elements + e) * step;
        // Bits inside an element of the counter are 0.
        let begins_element = bit & ((1 << z) - 1) == 0;
        if begins_element && ((bit >> z) < count) != inverted {
            set_bit(destination, e * step);
        }
    }
}

/// All of `pn` to `pd`, also the bits between elements, if the element of `pm`
/// at `base` + `offset` is true; else zeros.
#[expect(clippy::too_many_arguments, reason = "PSEL has that many fields")]
pub fn psel(
    slots: &mut Predicates,
    size: usize,
    base: u32,
    offset: u32,
    pn: usize,
    pm: usize,
    pd: usize,
    vl: usize,
) {
    let step = size / 8;
    let elements = vl / size;
    let index = (u64::from(base) + u64::from(offset)) as usize & (elements - 1);
    let chosen = bit(&slots[pm], index * step);
    // The destination may be a source.
    let copied = slots[pn];
    let destination = &mut slots[pd][..vl / 64];
    if chosen {
        destination.copy_from_slice(&copied[..vl / 64]);
    } else {
        destination.fill(0);
    }
}

#[inline]
fn bit(slot: &Slot, b: usize) -> bool {
    slot[b / 8] >> (b % 8) & 1 == 1
}

#[inline]
fn set_bit(bytes: &mut [u8], b: usize) {
    bytes[b / 8] |= 1 << (b % 8);
}
