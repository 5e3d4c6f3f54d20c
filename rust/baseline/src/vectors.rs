//! The vector registers, and LUTI4 on them.

pub const SLOTS: usize = 32;
pub const SLOT_BYTES: usize = 256;
pub const ENTRIES: usize = 16;

pub type Vectors = [[u8; SLOT_BYTES]; SLOTS];
pub type Table = [[u8; 4]; ENTRIES];

/// `SIZE` low bytes of table entries, 2 or 4, to four registers. No index
/// lies past the end of the source.
pub fn luti4<const SIZE: usize>(
    slots: &mut Vectors,
    table: &Table,
    i1: usize,
    zn: usize,
    zd: usize,
    stride: usize,
    vl: usize,
) {
    let bytes = vl / 8;
    let elements = bytes / SIZE;
    let segment = i1 % (SIZE / 2);
    // A destination may be the source.
    let source = slots[zn];
    for r in 0..4 {
        let first = (4 * segment + r) * elements;
        let destination = &mut slots[zd + stride * r][..bytes];
        for (e, element) in destination.as_chunks_mut::<SIZE>().0.iter_mut().enumerate() {
            let position = first + e;
            let index = source[position / 2] >> (4 * (position % 2)) & 15;
            element.copy_from_slice(&table[usize::from(index)][..SIZE]);
        }
    }
}
