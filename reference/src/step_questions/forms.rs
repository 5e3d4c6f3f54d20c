//! Every row at every size, length and immediate; document 01's points; PC.

use super::List;
use super::psel::indexed_bit;
use crate::instruction::Form;
use crate::layout::Row;
use crate::roles::word_of;
use crate::samples;
use crate::setting::VECTOR_LENGTHS;
use crate::values::PCS_OF_NOTE;

impl List {
    pub(super) fn forms(&mut self) {
        self.points();
        self.every_portion();
        self.every_psel_offset();
        self.every_lookup();
        self.every_shift();
        self.every_pc();
        self.any_steps();
        self.overrides_at_the_end();
    }

    /// Document 01's points 4 to 12, on machines that are otherwise anything.
    fn points(&mut self) {
        for value in [0x0080_007f, 0xff80_ff7f] {
            let question = self.open(128, 0x4528_3800).with_vector(0, 0, value);
            self.add(question);
        }
        let question = self
            .open(128, 0x457f_3800)
            .with_wide_element(0, 0, u64::MAX);
        self.add(question);
        // The same elements for the whole family.
        for bits in 0..16 {
            for (word, elements) in [
                (0x4528_0000, 0xff80_ff7f_0080_007f),
                (0x457f_0000, u64::MAX),
            ] {
                let question = self.open(128, word | bits << 10);
                self.add(question.with_wide_element(0, 0, elements));
            }
        }
        // One portion of P8 to P0, at B and H, each in turn.
        for counter in [0x0007, 0x8001, 0x0001, 0x8000, 0x8021, 0x0081] {
            for vl in [128, 256] {
                for portion in 0..4 {
                    for at_b in [0x2520_7010, 0x2560_7010] {
                        let word = at_b | portion << 8;
                        let question = self.open(vl, word).with_predicate(8, counter);
                        self.add(question);
                    }
                }
            }
        }
        for word in [0x252c_4000, 0x25e0_4000] {
            let mut question = self.open(128, word);
            question.start.w[0] = u32::MAX;
            self.add(question);
        }
        let question = self.open(128, 0x2520_741f);
        self.add(question);
        // Both words on one machine.
        let mut question = self.open(128, 0xc08a_9000);
        self.add(question);
        question.word = 0xc08b_9000;
        self.add(question);
    }

    /// PEXT at every length, size and portion, and from every counter
    /// register.
    fn every_portion(&mut self) {
        let portions: [(Row, &[u32]); 2] = [(Row::Pext1, &[0, 1, 2, 3]), (Row::Pext2, &[0, 2])];
        for (row, firsts) in portions {
            for &first in firsts {
                for size in [8, 16, 32, 64] {
                    for vl in VECTOR_LENGTHS {
                        let mut fields = self.fields(row);
                        fields[0] = size;
                        fields[1] = first;
                        let question = self.open_form(vl, Form::Pext, fields);
                        self.add(question);
                    }
                }
                for counter in 8..16 {
                    let vl = self.any_length();
                    let mut fields = self.fields(row);
                    fields[1] = first;
                    fields[3] = counter;
                    let question = self.open_form(vl, Form::Pext, fields);
                    self.add(question);
                }
            }
        }
    }

    /// PSEL at every offset of every size, at every length; index sums at and
    /// around 2^32; and, where a whole Pm can be chosen, one with a single
    /// element true or false, at which the index must point.
    fn every_psel_offset(&mut self) {
        for size in [8, 16, 32, 64] {
            for offset in 0..128 / size {
                for vl in VECTOR_LENGTHS {
                    let mut fields = self.fields(Row::Psel);
                    fields[..2].copy_from_slice(&[size, offset]);
                    let question = self.open_form(vl, Form::Psel, fields);
                    self.add(question);
                }
                let sums = [u32::MAX, u32::MAX - offset, 0u32.wrapping_sub(offset)];
                for base in sums {
                    let vl = self.any_length();
                    let mut fields = self.fields(Row::Psel);
                    fields[..2].copy_from_slice(&[size, offset]);
                    let mut question = self.open_form(vl, Form::Psel, fields);
                    question.start.w[fields[2] as usize - 12] = base;
                    self.add(question);
                }
                self.single_element(size, offset);
            }
        }
    }

    fn single_element(&mut self, size: u32, offset: u32) {
        let mut fields = self.fields(Row::Psel);
        let pm = self.register_apart(16, &[fields[3]]);
        fields[..2].copy_from_slice(&[size, offset]);
        fields[4] = pm;
        let question = self.open_form(128, Form::Psel, fields);
        let single = 1u16 << indexed_bit(&question, fields);
        self.add(question.with_predicate(pm, single));
        self.add(question.with_predicate(pm, !single));
    }

    /// LUTI4 at every length, size and i1, to every destination.
    fn every_lookup(&mut self) {
        for vl in VECTOR_LENGTHS {
            for i1 in 0..2 {
                for place in 0..8 {
                    for size in [16, 32] {
                        let zn = self.random.below(32);
                        let fields = [size, i1, zn, 4 * place, 0, 0];
                        let question = self.open_form(vl, Form::Luti4c, fields);
                        self.add(question);
                    }
                    let zn = self.random.below(32);
                    let first = 16 * (place / 4) + place % 4;
                    let question = self.open_form(vl, Form::Luti4s, [16, i1, zn, first, 0, 0]);
                    self.add(question);
                }
            }
        }
    }

    /// Each narrowing word at every shift of every size, with Zn = Zd and not;
    /// the lengths go around, so that each word and each shift meets them all.
    fn every_shift(&mut self) {
        for bits in 0..16 {
            for size in [8, 16, 32] {
                for shift in 1..=size {
                    let zn = self.random.below(32);
                    let other = self.register_apart(32, &[zn]);
                    for (place, zd) in [(0, other), (2, zn)] {
                        let vl = VECTOR_LENGTHS[(bits + shift + place) as usize % 5];
                        let fields = [bits, size, shift, zn, zd, 0];
                        let question = self.open_form(vl, Form::Narrow, fields);
                        self.add(question);
                    }
                }
            }
        }
    }

    /// Every row at every noted PC, and the wrap once more with a word that
    /// is refused.
    fn every_pc(&mut self) {
        for row in Row::ALL {
            for pc in PCS_OF_NOTE {
                let vl = self.any_length();
                let fields = self.fields(row);
                let mut question = self.open_form(vl, row.form(), fields);
                question.start.pc = pc;
                self.add(question);
            }
            let fields = self.fields(row);
            let mut question = self.open_form(128, row.form(), fields);
            question.start.pc = 0xffff_ffff_ffff_fffc;
            question.start.contents.zt_length = 63;
            self.add(question);
        }
    }

    /// Any fields at any length and any PC.
    fn any_steps(&mut self) {
        for row in Row::ALL {
            for _ in 0..16 {
                let vl = self.any_length();
                let word = samples::matching_word(&mut self.random, row);
                let mut question = self.open(vl, word);
                question.start.pc = self.random.next_u64();
                self.add(question);
            }
        }
    }

    /// Overrides that just fit in their file, that just do not, and that lie
    /// anywhere; for PEXT of P15 and LUTI4 of Z31 at the greatest length,
    /// which read those bytes.
    fn overrides_at_the_end(&mut self) {
        let pext = word_of(Form::Pext, [8, 3, 1, 15, 0, 0]);
        let lookup = word_of(Form::Luti4c, [16, 0, 31, 0, 0, 0]);
        let anywhere = self.random.below(8192);
        let places = [
            (510, 8188),
            (511, 8189),
            (512, 8191),
            (513, 8192),
            (480, 7936),
            (481, 7937),
            (anywhere % 512, anywhere),
            (u32::MAX - 1, u32::MAX - 3),
        ];
        for word in [pext, lookup] {
            for (p_at, z_at) in places {
                let mut question = self.open(2048, word);
                question.start.contents.p_at = p_at;
                question.start.contents.p_value = self.random.next_u32() as u16;
                question.start.contents.z_at = z_at;
                question.start.contents.z_value = self.random.next_u32();
                self.add(question);
            }
        }
    }
}
