//! Counters, given through the P file.

use super::List;
use crate::instruction::Form;
use crate::layout::Row;
use crate::setting::VECTOR_LENGTHS;
use crate::values::NOTED_COUNTERS;

/// The counter for elements of 8·2^z bits.
fn counter(z: u32, count: u32, inverted: bool) -> u16 {
    let value = count << (z + 1) | 1 << z;
    assert!(value < 1 << 15);
    value as u16 | u16::from(inverted) << 15
}

/// The highest bit of a count: 2^m is 4·PL.
fn highest_count_bit(vl: u32) -> u32 {
    (vl / 2).trailing_zeros()
}

impl List {
    pub(super) fn counters(&mut self) {
        self.every_size_of_both();
        self.noted_counters();
        self.ignored_bits();
    }

    /// At every length the counter's size against the instruction's, each
    /// pair with counts at both ends and at the portions' ends.
    fn every_size_of_both(&mut self) {
        let mut turn = 0;
        for vl in VECTOR_LENGTHS {
            for z in 0..4 {
                let elements = (vl / 2) >> z;
                let quarter = elements / 4;
                for size in [8, 16, 32, 64] {
                    let some_quarter = quarter * (1 + self.random.below(3));
                    let counts = [
                        0,
                        1,
                        some_quarter - 1,
                        some_quarter,
                        self.random.below(elements),
                        elements - 1,
                    ];
                    for count in counts {
                        let inverted = turn / 2 % 2 == 1;
                        let portion = if count == elements - 1 {
                            3
                        } else {
                            count / quarter
                        };
                        let value = self.fill_ignored(vl, counter(z, count, inverted));
                        if turn % 2 == 0 {
                            self.pext(vl, Row::Pext1, size, portion, value);
                        } else {
                            self.pext(vl, Row::Pext2, size, portion / 2 * 2, value);
                        }
                        turn += 1;
                    }
                    // Six counts in a row would meet the same two bits of the
                    // turn each time; one more moves them on.
                    turn += 1;
                }
            }
        }
    }

    fn noted_counters(&mut self) {
        for vl in VECTOR_LENGTHS {
            for value in NOTED_COUNTERS {
                for (row, portions) in [(Row::Pext1, 1), (Row::Pext2, 2)] {
                    let size = self.random.pick(&[8, 16, 32, 64]);
                    let first = portions * self.random.below(4 / portions);
                    self.pext(vl, row, size, first, value);
                }
            }
        }
    }

    /// Each bit from the highest of the count up to 14 by itself.
    fn ignored_bits(&mut self) {
        for vl in VECTOR_LENGTHS {
            for bit in highest_count_bit(vl)..15 {
                for inverted in [false, true] {
                    let z = self.random.below(4);
                    let count = self.random.below(4);
                    let value = counter(z, count, inverted) | 1 << bit;
                    let size = self.random.pick(&[8, 16, 32, 64]);
                    let first = 2 * (self.questions.count() as u32 % 2);
                    self.pext(vl, Row::Pext2, size, first, value);
                }
            }
        }
    }

    /// The counter with its ignored bits all clear, all set or anything.
    fn fill_ignored(&mut self, vl: u32, value: u16) -> u16 {
        let lowest = highest_count_bit(vl) + 1;
        let ignored = 0x7fff & !((1u16 << lowest) - 1);
        let filling = match self.random.below(3) {
            0 => 0,
            1 => u16::MAX,
            _ => self.random.next_u32() as u16,
        };
        value | filling & ignored
    }

    fn pext(&mut self, vl: u32, row: Row, size: u32, first: u32, value: u16) {
        let mut fields = self.fields(row);
        fields[0] = size;
        fields[1] = first;
        let question = self.open_form(vl, Form::Pext, fields);
        self.add(question.with_predicate(fields[3], value));
    }
}

#[cfg(test)]
mod tests {
    use super::*;

    #[test]
    fn counters_of_document_01() {
        assert_eq!(counter(0, 3, false), 0x0007);
        assert_eq!(counter(0, 16, true), 0x8021);
        assert_eq!(counter(0, 64, false), 0x0081);
        assert_eq!(highest_count_bit(128), 6);
        assert_eq!(highest_count_bit(2048), 10);
    }
}
