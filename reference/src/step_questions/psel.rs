//! PSEL (document 02, request 2): the features it hangs on, the bits between
//! elements, and sums around 2^32.
//!
//! A machine's files come from a seed, so that no long register can be chosen
//! whole: 64 bits of Pn or Pm can be, by the seed, and sixteen more by the
//! override. The rest is anything.

use super::{List, flags};
use crate::index_unit::element_index;
use crate::instruction::Form;
use crate::layout::Row;
use crate::machine::P_SLOT_BYTES;
use crate::setting::{VECTOR_LENGTHS, WITHOUT_SME};
use crate::step_question::StepQuestion;
use crate::values::FEATURES_FOR_PSEL;

/// The bit of Pm that stands for the element at the index.
pub(super) fn indexed_bit(question: &StepQuestion, fields: [u32; 6]) -> u32 {
    let [size, offset, index, ..] = fields;
    let base = question.start.w[index as usize - 12];
    element_index(question.start.setting.vl, size, offset, base) * size / 8
}

/// With the element at the index true or false, and all other bits as they
/// were.
pub(super) fn with_indexed(
    question: StepQuestion,
    fields: [u32; 6],
    element: bool,
) -> StepQuestion {
    let bit = indexed_bit(&question, fields);
    let at = fields[4] as usize * P_SLOT_BYTES + bit as usize / 16 * 2;
    let p = question.start.machine().p;
    let held = u16::from_le_bytes([p[at], p[at + 1]]);
    let single = 1 << (bit % 16);
    let sixteen = if element {
        held | single
    } else {
        held & !single
    };
    with_sixteen(question, fields, sixteen)
}

/// With the sixteen bits of Pm chosen among which that of the element lies.
fn with_sixteen(question: StepQuestion, fields: [u32; 6], sixteen: u16) -> StepQuestion {
    let bit = indexed_bit(&question, fields);
    question.with_predicate_at(fields[4], bit / 16 * 2, sixteen)
}

/// The bits of 64 that stand for elements of this size.
fn element_bits(size: u32) -> u64 {
    let mut bits = 0;
    for bit in (0..64).step_by(size as usize / 8) {
        bits |= 1 << bit;
    }
    bits
}

impl List {
    pub(super) fn psel(&mut self) {
        self.point_10();
        for size in [8, 16, 32, 64] {
            for vl in VECTOR_LENGTHS {
                self.under(WITHOUT_SME, vl, size);
                self.between_elements(vl, size);
                self.around_the_wrap(vl, size);
            }
            for features in FEATURES_FOR_PSEL {
                let vl = self.any_length();
                self.under(features, vl, size);
            }
        }
    }

    /// Document 01's point 10 under the new operation: the element read true
    /// and false, alone and not, and bits between elements copied.
    fn point_10(&mut self) {
        for (word, base, p0) in [
            (0x252c_4000, u32::MAX, 0x0001),
            (0x252c_4000, u32::MAX, 0x7fff),
            (0x252c_4000, u32::MAX, 0xfffe),
            (0x25e0_4000, 0, 0x0100),
            (0x25e0_4000, 0, 0xfffe),
            (0x25e0_4000, 0, 0xfefe),
        ] {
            let mut question = self.open(128, word).with_predicate(0, p0);
            question.start.w[0] = base;
            self.add(question);
        }
    }

    /// The fields of a PSEL of this size with three different registers.
    fn psel_apart(&mut self, size: u32) -> [u32; 6] {
        let [_, _, index, pn, ..] = self.fields(Row::Psel);
        let offset = self.random.below(128 / size);
        let pm = self.register_apart(16, &[pn]);
        let pd = self.register_apart(16, &[pn, pm]);
        [size, offset, index, pn, pm, pd]
    }

    /// With only V open, the element at the index true and false, and with
    /// only V closed.
    fn under(&mut self, features: u32, vl: u32, size: u32) {
        for (number, element) in [(1, true), (1, false), (6, true)] {
            let fields = self.psel_apart(size);
            let mut question = self.open_form(vl, Form::Psel, fields);
            question.start.setting.features = features;
            question.start.flags = flags(number);
            self.add(with_indexed(question, fields, element));
        }
    }

    /// Pn with the bits between elements set, and with the elements set or
    /// not; the element at the index alone true, alone false, and false with
    /// just the bits between set around it.
    fn between_elements(&mut self, vl: u32, size: u32) {
        let between = !element_bits(size);
        for copied in [u64::MAX, between] {
            let fields = self.psel_apart(size);
            let part = self.random.below(vl.div_ceil(512));
            let question = self
                .open_form(vl, Form::Psel, fields)
                .with_wide_predicate(fields[3], part, copied);
            let single = 1 << (indexed_bit(&question, fields) % 16);
            for sixteen in [single, !single, between as u16] {
                self.add(with_sixteen(question, fields, sixteen));
            }
        }
        // Anything in Pn, and more of Pm.
        let fields = self.psel_apart(size);
        let question = self.open_form(vl, Form::Psel, fields);
        let part = indexed_bit(&question, fields) / 64;
        self.add(question.with_wide_predicate(fields[4], part, between));
    }

    /// Several offsets, with sums at, next to and beyond 2^32, and one that
    /// just passes the last element.
    fn around_the_wrap(&mut self, vl: u32, size: u32) {
        let last = 128 / size - 1;
        let mut offsets = vec![0, 1, last / 2 + 1, last];
        offsets.dedup();
        for offset in offsets {
            let at_the_wrap = 0u32.wrapping_sub(offset);
            let mut bases = vec![
                u32::MAX,
                at_the_wrap.wrapping_sub(1),
                at_the_wrap,
                at_the_wrap.wrapping_add(1),
                vl / size - offset,
            ];
            bases.sort_unstable();
            bases.dedup();
            for base in bases {
                self.alone(vl, size, offset, base);
            }
        }
    }

    /// The element at the index true, and false, by itself: in the 64 bits of
    /// Pm around it, and at the other end where Pm is longer.
    fn alone(&mut self, vl: u32, size: u32, offset: u32, base: u32) {
        let mut fields = self.psel_apart(size);
        fields[1] = offset;
        let mut question = self.open_form(vl, Form::Psel, fields);
        question.start.w[fields[2] as usize - 12] = base;
        let bit = indexed_bit(&question, fields);
        let single = 1u64 << (bit % 64);
        for (around, other_end) in [(single, 0), (!single, u16::MAX)] {
            let mut question = question.with_wide_predicate(fields[4], bit / 64, around);
            if vl > 512 {
                let byte = if bit < 64 { vl / 64 - 2 } else { 0 };
                question = question.with_predicate_at(fields[4], byte, other_end);
            }
            self.add(question);
        }
    }
}

#[cfg(test)]
mod tests {
    use super::*;
    use crate::once::Once;
    use crate::random::Random;

    #[test]
    fn bits_of_elements() {
        assert_eq!(element_bits(8), u64::MAX);
        assert_eq!(element_bits(16), 0x5555_5555_5555_5555);
        assert_eq!(element_bits(32), 0x1111_1111_1111_1111);
        assert_eq!(element_bits(64), 0x0101_0101_0101_0101);
    }

    /// Only the bit that is meant changes, also in the last bits of the file.
    #[test]
    fn the_element_is_set_and_nothing_else() {
        let mut list = List {
            questions: Once::new(),
            random: Random::new(5),
        };
        let fields = [64, 1, 15, 0, 15, 1];
        let mut question = list.open_form(2048, Form::Psel, fields);
        for (base, byte) in [(30, 31), (31, 0), (u32::MAX, 0), (u32::MAX - 1, 31)] {
            question.start.w[3] = base;
            assert_eq!(indexed_bit(&question, fields), 8 * byte);
            let mut p = question.start.machine().p;
            for element in [true, false] {
                let at = 480 + byte as usize;
                p[at] = p[at] & 0xfe | u8::from(element);
                let chosen = with_indexed(question, fields, element);
                assert_eq!(chosen.start.machine().p, p);
            }
        }
    }
}
