//! Counters in a student's words. What a counter means is the library's
//! business: here its sixteen bits are only written and told.

use crate::register::letter_of;

/// What a lesson says of a counter.
#[derive(Clone, Copy, Debug, PartialEq, Eq)]
pub enum Counter {
    /// The sixteen bits as they are.
    Bits(u16),
    /// The first so many elements of a size.
    First { size: u32, count: u32 },
    /// All but the first so many.
    AllBut { size: u32, count: u32 },
}

/// How many elements of a size a counter counts: those of four registers.
pub fn elements(size: u32, vl: u32) -> u32 {
    4 * vl / size
}

impl Counter {
    /// The count that it asks for, and of how many it must be.
    pub fn count_of(self, vl: u32) -> Option<(u32, u32)> {
        match self {
            Counter::Bits(_) => None,
            Counter::First { size, count } | Counter::AllBut { size, count } => {
                Some((count, elements(size, vl)))
            }
        }
    }

    /// The sixteen bits. A count is less than the number of elements, so all
    /// of them are "all but the first 0", and a count above that is all.
    pub fn bits(self, vl: u32) -> u16 {
        let (inverted, size, count) = match self {
            Counter::Bits(bits) => return bits,
            Counter::First { size, count } => (false, size, count),
            Counter::AllBut { size, count } => (true, size, count),
        };
        let all = count >= elements(size, vl);
        let count = if all { 0 } else { count };
        let inverted = u32::from(inverted != all);
        let z = (size / 8).trailing_zeros();
        let bits = inverted << 15 | count << (z + 1) | 1 << z;
        u16::try_from(bits).expect("a count has at most ten bits")
    }
}

/// What sixteen bits count at a vector length.
pub fn words(bits: u16, vl: u32) -> String {
    if bits & 15 == 0 {
        return "no element is true (its low four bits are 0)".to_string();
    }
    let z = bits.trailing_zeros();
    let size = 8 << z;
    let elements = elements(size, vl);
    let count = u32::from(bits) >> (z + 1) & (elements - 1);
    let letter = letter_of(size);
    match (bits >> 15 == 1, count) {
        (false, 0) => format!("none of {elements} elements .{letter}"),
        (true, 0) => format!("all of {elements} elements .{letter}"),
        (false, _) => format!("the first {count} of {elements} elements .{letter}"),
        (true, _) => format!("all but the first {count} of {elements} elements .{letter}"),
    }
}

#[cfg(test)]
mod tests {
    use super::*;
    use reference::setting::VECTOR_LENGTHS;

    /// The elements that the reference finds true, at their own size.
    fn true_elements(bits: u16, size: u32, vl: u32) -> Vec<bool> {
        let mask = reference::counter::Counter(bits).expand(vl);
        mask.into_iter().step_by(size as usize / 8).collect()
    }

    #[test]
    fn counters_are_what_the_lesson_says() {
        for vl in VECTOR_LENGTHS {
            for size in [8, 16, 32, 64] {
                let all = elements(size, vl);
                for count in [0, 1, 2, all / 2, all - 1, all, all + 1, 99_999] {
                    let first = Counter::First { size, count }.bits(vl);
                    let but = Counter::AllBut { size, count }.bits(vl);
                    let expected: Vec<bool> = (0..all).map(|e| e < count).collect();
                    assert_eq!(true_elements(first, size, vl), expected);
                    let others: Vec<bool> = expected.iter().map(|bit| !bit).collect();
                    assert_eq!(true_elements(but, size, vl), others);
                }
            }
        }
    }

    #[test]
    fn the_words_are_what_the_reference_finds() {
        for vl in VECTOR_LENGTHS {
            for bits in (0..=u16::MAX).step_by(7).chain([0x8000, 0x8001, 0x0081]) {
                let size = if bits & 15 == 0 {
                    8
                } else {
                    8 << bits.trailing_zeros()
                };
                let found = true_elements(bits, size, vl);
                let total = found.len();
                let count = found.iter().filter(|&&bit| bit).count();
                let told = words(bits, vl);
                let expected = if bits & 15 == 0 {
                    assert_eq!(count, 0);
                    assert!(told.starts_with("no element"));
                    continue;
                } else if count == 0 {
                    format!("none of {total} ")
                } else if count == total {
                    format!("all of {total} ")
                } else if found[0] {
                    format!("the first {count} of {total} ")
                } else {
                    format!("all but the first {} of {total} ", total - count)
                };
                assert!(told.starts_with(&expected), "{bits:04x} at {vl}: {told}");
            }
        }
    }
}
