//! The narrowing words' elements at the edges of rounding, of saturation and
//! of their own type.

use super::List;
use crate::instruction::Form;
use crate::narrow::Kind;
use crate::once::Once;

/// Elements of 2·size bits at the edges for a word, a result size and a
/// shift, each once. T has no part in them.
pub fn edges(kind: Kind, size: u32, shift: u32) -> Vec<u64> {
    let wide = 1i128 << (2 * size);
    let half = 1i128 << (shift - 1);
    let added = if kind.r { half } else { 0 };
    let (least, greatest) = result_range(kind, size);
    let first_above = ((greatest + 1) << shift) - added;
    let first_inside = (least << shift) - added;
    let numbers = [
        // Just below, at and just above the ties at plus and minus one half.
        half - 1,
        half,
        half + 1,
        -half - 1,
        -half,
        -half + 1,
        // The last that is not cut and the first that is, at each end. For
        // the low half, the first whose upper part is lost.
        first_above - 1,
        first_above,
        first_inside,
        first_inside - 1,
    ];
    let elements = if kind.u { 0..wide } else { -wide / 2..wide / 2 };
    let mut list = Once::new();
    // By their bits: all of them, and the signed least and greatest.
    for bits in [0, 1, wide - 1, wide / 2, wide / 2 - 1] {
        list.add(bits as u64);
    }
    for number in numbers {
        // One of the numbers above may lie outside the type.
        if elements.contains(&number) {
            list.add(number.rem_euclid(wide) as u64);
        }
    }
    list.into_list()
}

/// What a result can be; for the low half, before its carry is lost.
fn result_range(kind: Kind, size: u32) -> (i128, i128) {
    let values = 1i128 << size;
    if kind.op && !kind.u {
        (-values / 2, values / 2 - 1)
    } else {
        (0, values - 1)
    }
}

impl List {
    /// Each of the sixteen at each size and shift with each of its edges, as
    /// many in one question as 64 bits hold. One in three has Zn = Zd, other
    /// ones for T than for B.
    pub(super) fn elements(&mut self) {
        for bits in 0..16 {
            for size in [8, 16, 32] {
                for shift in 1..=size {
                    let edges = edges(Kind::from_number(bits), size, shift);
                    for (place, part) in (0..).zip(edges.chunks(32 / size as usize)) {
                        let in_place = (bits + shift + place) % 3 == 0;
                        self.wide_element([bits, size, shift], packed(part, size), in_place);
                    }
                }
            }
        }
    }

    /// The 64-bit value at any place of the source.
    fn wide_element(&mut self, first: [u32; 3], value: u64, in_place: bool) {
        let vl = self.any_length();
        let zn = self.random.below(32);
        let zd = if in_place {
            zn
        } else {
            self.register_apart(32, &[zn])
        };
        let [bits, size, shift] = first;
        let element = self.random.below(vl / 64);
        let question = self.open_form(vl, Form::Narrow, [bits, size, shift, zn, zd, 0]);
        self.add(question.with_wide_element(zn, element, value));
    }
}

/// Elements of 2·size bits side by side, the first one lowest.
fn packed(elements: &[u64], size: u32) -> u64 {
    let mut value = 0;
    for (place, element) in (0..).zip(elements) {
        value |= element << (2 * size * place);
    }
    value
}

#[cfg(test)]
mod tests {
    use super::*;

    fn has(bits: u32, size: u32, shift: u32, wanted: &[u64]) {
        let edges = edges(Kind::from_number(bits), size, shift);
        for edge in wanted {
            assert!(edges.contains(edge), "{bits} {size} {shift} {edge:x}");
        }
    }

    #[test]
    fn edges_by_hand() {
        // UQRSHRN: document 01's points 4 and 5
        has(14, 8, 8, &[0, 0x7f, 0x80, 0xff7f, 0xff80, 0xffff]);
        has(14, 32, 1, &[0, 1, u64::MAX]);
        // SQSHRN: 127 and 128, -128 and -129 halved
        has(8, 8, 1, &[0x00ff, 0x0100, 0xff00, 0xfeff, 0x7fff, 0x8000]);
        // SQRSHRN: one half less at each end
        has(10, 8, 1, &[0x00fe, 0x00ff, 0xfeff, 0xfefe, 0xffff]);
        has(
            10,
            32,
            32,
            &[i64::MAX as u64, 1 << 63, 0x7fff_ffff_7fff_ffff],
        );
        // SQRSHRUN: 255 and 256, 0 and -1
        has(2, 8, 1, &[0x01fe, 0x01ff, 0xffff, 0xfffe]);
        // RSHRN: the low half's carry
        has(6, 8, 1, &[0x01fe, 0x01ff, 0xffff]);
    }

    #[test]
    fn edges_fit_and_come_once() {
        for bits in 0..16 {
            for size in [8, 16, 32] {
                for shift in 1..=size {
                    let mut edges = edges(Kind::from_number(bits), size, shift);
                    assert!(
                        edges
                            .iter()
                            .all(|&edge| u128::from(edge) >> (2 * size) == 0)
                    );
                    let count = edges.len();
                    edges.sort_unstable();
                    edges.dedup();
                    assert_eq!(edges.len(), count);
                }
            }
        }
    }

    #[test]
    fn packed_low_first() {
        assert_eq!(packed(&[1, 2, 3, 4], 8), 0x0004_0003_0002_0001);
        assert_eq!(packed(&[1, u32::MAX.into()], 16), 0xffff_ffff_0000_0001);
        assert_eq!(packed(&[u64::MAX], 32), u64::MAX);
    }
}
