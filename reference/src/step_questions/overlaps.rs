//! Sources that are destinations too.

use super::List;
use super::psel::with_indexed;
use crate::instruction::Form;
use crate::layout::Row;
use crate::setting::VECTOR_LENGTHS;

impl List {
    pub(super) fn overlaps(&mut self) {
        for vl in VECTOR_LENGTHS {
            self.counter_and_destination(vl);
            self.pairs_at_the_wrap(vl);
            self.psel_registers(vl);
            self.lookup_into_its_source(vl);
            self.narrow_in_place(vl);
        }
    }

    /// Pd, or the second destination of two, is the counter register.
    fn counter_and_destination(&mut self, vl: u32) {
        for counter in 8..16 {
            for (row, pd) in [
                (Row::Pext1, counter),
                (Row::Pext2, counter),
                (Row::Pext2, counter - 1),
            ] {
                let mut fields = self.fields(row);
                fields[3] = counter;
                fields[4] = pd;
                let question = self.open_form(vl, Form::Pext, fields);
                self.add(question);
            }
        }
    }

    /// Two portions to P15 and P0, and to P14 and P15.
    fn pairs_at_the_wrap(&mut self, vl: u32) {
        for pd in [14, 15] {
            for first in [0, 2] {
                for size in [8, 16, 32, 64] {
                    let counter = 8 + self.random.below(8);
                    let fields = [size, first, 2, counter, pd, 0];
                    let question = self.open_form(vl, Form::Pext, fields);
                    self.add(question);
                }
            }
        }
    }

    /// Pd is Pn, Pd is Pm, Pn is Pm, and all three are one; with the element
    /// at the index true and false.
    fn psel_registers(&mut self, vl: u32) {
        for size in [8, 16, 32, 64] {
            let a = self.random.below(16);
            let b = self.register_apart(16, &[a]);
            for registers in [[a, b, a], [b, a, a], [a, a, b], [a, a, a]] {
                let mut fields = self.fields(Row::Psel);
                fields[0] = size;
                fields[1] = self.random.below(128 / size);
                fields[3..].copy_from_slice(&registers);
                let question = self.open_form(vl, Form::Psel, fields);
                for element in [true, false] {
                    self.add(with_indexed(question, fields, element));
                }
            }
        }
    }

    /// Zn is each of the four destinations in turn.
    fn lookup_into_its_source(&mut self, vl: u32) {
        for i1 in 0..2 {
            for r in 0..4 {
                for size in [16, 32] {
                    let first = 4 * self.random.below(8);
                    let fields = [size, i1, first + r, first, 0, 0];
                    let question = self.open_form(vl, Form::Luti4c, fields);
                    self.add(question);
                }
                let first = 16 * self.random.below(2) + self.random.below(4);
                let fields = [16, i1, first + 4 * r, first, 0, 0];
                let question = self.open_form(vl, Form::Luti4s, fields);
                self.add(question);
            }
        }
    }

    /// Zd is Zn, for each of the sixteen words.
    fn narrow_in_place(&mut self, vl: u32) {
        for bits in 0..16 {
            for size in [8, 16, 32] {
                let any = 1 + self.random.below(size);
                let shift = self.random.pick(&[1, any, size]);
                let register = self.random.below(32);
                let fields = [bits, size, shift, register, register, 0];
                let question = self.open_form(vl, Form::Narrow, fields);
                self.add(question);
            }
        }
    }
}
