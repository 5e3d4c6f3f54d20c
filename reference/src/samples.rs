//! Seeded words and fields to ask about.
//!
//! Words are made from masks and fields from their ranges, neither from the
//! other by `encode` or `decode`, so that a slip there does not hide itself.

use crate::decode::decode;
use crate::instruction::Form;
use crate::layout::{Row, has_field_condition, layout_of};
use crate::random::Random;
use crate::setting::FULL;

/// The bits of each field of a row in the word. PSEL's size and offset share
/// theirs, as do the narrowing words' size and shift, and LUTI4S has its destination in
/// two pieces.
pub fn field_masks(row: Row) -> &'static [u32] {
    match row {
        Row::Pext1 => &[0x00c0_0000, 0x300, 0xe0, 0xf],
        Row::Pext2 => &[0x00c0_0000, 0x100, 0xe0, 0xf],
        Row::Psel => &[0x00dc_0000, 0x0003_0000, 0x3c00, 0x1e0, 0xf],
        Row::Luti4c => &[0x0001_0000, 0x3000, 0x3e0, 0x1c],
        Row::Luti4s => &[0x0001_0000, 0x3000, 0x3e0, 0x13],
        Row::Narrow => &[0x3c00, 0x005f_0000, 0x3e0, 0x1f],
    }
}

/// The bits the field condition looks at and the values that fail it.
pub fn failing_conditions(row: Row) -> (u32, &'static [u32]) {
    match row {
        Row::Pext1 | Row::Pext2 => (0, &[]),
        Row::Psel => (0x005c_0000, &[0]),
        Row::Luti4c => (0x3000, &[0x0000, 0x3000]),
        Row::Luti4s => (0x3000, &[0x0000, 0x2000, 0x3000]),
        Row::Narrow => (0x0058_0000, &[0]),
    }
}

/// A word with the row's fixed bits and its field condition.
pub fn matching_word(random: &mut Random, row: Row) -> u32 {
    let layout = layout_of(row);
    loop {
        let word = (random.next_u32() & !layout.mask) | layout.value;
        if has_field_condition(row, word) {
            return word;
        }
    }
}

/// The narrowing word with this op:U:R:T and tszh:tszl:imm3, which may be
/// that of no size.
pub fn narrow_word(bits: u32, amount: u32, zn: u32, zd: u32) -> u32 {
    0x4520_0000 | bits << 10 | spread(amount, 0x005f_0000) | zn << 5 | zd
}

/// The PEXT word with this size and PNn as the word has them, these portions,
/// one or two, and Pd.
pub fn pext_word(size: u32, first: u32, portions: u32, pnn: u32, pd: u32) -> u32 {
    let portions = match portions {
        1 => first << 8,
        _ => 0x400 | (first / 2) << 8,
    };
    0x2520_7010 | size << 22 | portions | pnn << 5 | pd
}

/// The PSEL word with this i1:tszh:tszl, which may be that of no size, this
/// Rv, and these registers.
pub fn psel_word(imm: u32, rv: u32, pn: u32, pm: u32, pd: u32) -> u32 {
    0x2520_4000 | spread(imm, 0x00dc_0000) | rv << 16 | pn << 10 | pm << 5 | pd
}

/// A word with the row's fixed bits, failing its field condition; none for
/// the rows without one.
pub fn failing_word(random: &mut Random, row: Row) -> Option<u32> {
    let (mask, values) = failing_conditions(row);
    if values.is_empty() {
        return None;
    }
    let word = matching_word(random, row);
    Some((word & !mask) | random.pick(values))
}

/// A word one or two bits away from a matching one.
pub fn flipped_word(random: &mut Random, row: Row, flips: u32) -> u32 {
    let mut word = matching_word(random, row);
    let first = random.below(32);
    word ^= 1 << first;
    if flips == 2 {
        let second = (first + 1 + random.below(31)) % 32;
        word ^= 1 << second;
    }
    word
}

/// A word that nearly matches and is undefined under all features.
pub fn near_miss(random: &mut Random) -> u32 {
    loop {
        let row = random.pick(&Row::ALL);
        let word = match random.below(3) {
            0 => failing_word(random, row),
            1 => Some(flipped_word(random, row, 1)),
            _ => Some(flipped_word(random, row, 2)),
        };
        if let Some(word) = word
            && decode(FULL, word).is_err()
        {
            return word;
        }
    }
}

/// Fields of the row's form, all in their ranges; for PEXT those of the row's
/// number of portions.
pub fn fields_in_range(random: &mut Random, row: Row) -> [u32; 6] {
    match row {
        Row::Pext1 => [
            random.pick(&[8, 16, 32, 64]),
            random.below(4),
            1,
            8 + random.below(8),
            random.below(16),
            0,
        ],
        Row::Pext2 => [
            random.pick(&[8, 16, 32, 64]),
            2 * random.below(2),
            2,
            8 + random.below(8),
            random.below(16),
            0,
        ],
        Row::Psel => {
            let size = random.pick(&[8, 16, 32, 64]);
            [
                size,
                random.below(128 / size),
                12 + random.below(4),
                random.below(16),
                random.below(16),
                random.below(16),
            ]
        }
        Row::Luti4c => [
            random.pick(&[16, 32]),
            random.below(2),
            random.below(32),
            4 * random.below(8),
            0,
            0,
        ],
        Row::Luti4s => [
            16,
            random.below(2),
            random.below(32),
            16 * random.below(2) + random.below(4),
            0,
            0,
        ],
        Row::Narrow => {
            let size = random.pick(&[8, 16, 32]);
            [
                random.below(16),
                size,
                1 + random.below(size),
                random.below(32),
                random.below(32),
                0,
            ]
        }
    }
}

/// Values near a field's range and outside it, whatever the other fields are.
pub fn values_outside(form: Form, place: usize) -> &'static [u32] {
    const PREDICATE: &[u32] = &[16, 17, 31];
    const VECTOR: &[u32] = &[32, 33, 63];
    const COUNTER: &[u32] = &[0, 1, 7, 16];
    const ELEMENT_SIZE: &[u32] = &[0, 1, 4, 7, 9, 24, 63, 65, 128];
    let by_place: [&[u32]; 6] = match form {
        Form::Pext => [
            ELEMENT_SIZE,
            &[4, 5, 6, 7],
            &[0, 3, 4, 5],
            COUNTER,
            PREDICATE,
            &[],
        ],
        Form::Psel => [
            ELEMENT_SIZE,
            &[16, 17, 31],
            &[0, 3, 11, 16],
            PREDICATE,
            PREDICATE,
            PREDICATE,
        ],
        Form::Luti4c => [
            &[0, 1, 8, 15, 17, 24, 33, 64],
            &[2, 3],
            VECTOR,
            &[1, 2, 3, 5, 27, 29, 30, 31, 32],
            &[],
            &[],
        ],
        Form::Luti4s => [
            &[0, 1, 8, 15, 17, 32, 64],
            &[2, 3],
            VECTOR,
            &[4, 7, 8, 12, 15, 20, 28, 31, 32],
            &[],
            &[],
        ],
        Form::Narrow => [
            &[16, 17, 31],
            &[0, 1, 4, 7, 9, 24, 33, 64],
            &[0, 33, 64],
            VECTOR,
            VECTOR,
            &[],
        ],
    };
    by_place[place]
}

/// Words for the lister: by the toss of a coin a matching word of any row,
/// or else a near miss or any word at all.
pub fn listing_words(seed: u64, count: u64) -> impl Iterator<Item = u32> {
    let mut random = Random::new(seed);
    (0..count).map(move |_| {
        if random.coin() {
            let row = random.pick(&Row::ALL);
            matching_word(&mut random, row)
        } else if random.coin() {
            near_miss(&mut random)
        } else {
            random.next_u32()
        }
    })
}

/// The low bits of `value` moved to the places of the mask's bits.
pub fn spread(value: u32, mask: u32) -> u32 {
    let mut result = 0;
    let mut next = 0; // the bit of `value` to place next
    for place in 0..32 {
        if mask >> place & 1 == 1 {
            result |= (value >> next & 1) << place;
            next += 1;
        }
    }
    result
}

#[cfg(test)]
mod tests {
    use super::*;
    use crate::encode::in_range;
    use crate::instruction::Instruction;
    use crate::layout::row_by_fixed_bits;

    #[test]
    fn field_masks_are_just_the_bits_that_are_not_fixed() {
        for row in Row::ALL {
            let mut all = 0;
            for &mask in field_masks(row) {
                assert_eq!(all & mask, 0);
                all |= mask;
            }
            assert_eq!(all, !layout_of(row).mask);
        }
    }

    #[test]
    fn samples_are_what_they_are_called() {
        let mut random = Random::new(11);
        for _ in 0..500 {
            for row in Row::ALL {
                let word = matching_word(&mut random, row);
                assert_eq!(decode(FULL, word).map(|i| i.row()), Ok(row));
                let form = row.form();
                let fields = fields_in_range(&mut random, row);
                let instruction = Instruction::from_fields(form, fields);
                assert!(in_range(instruction));
                assert_eq!(instruction.row(), row);
                for place in 0..form.field_count() {
                    let mut fields = fields;
                    fields[place] = random.pick(values_outside(form, place));
                    assert!(!in_range(Instruction::from_fields(form, fields)));
                }
                if let Some(word) = failing_word(&mut random, row) {
                    assert_eq!(row_by_fixed_bits(word), Some(row));
                    assert!(decode(FULL, word).is_err());
                }
            }
            assert!(decode(FULL, near_miss(&mut random)).is_err());
        }
    }

    #[test]
    fn all_sixteen_of_the_family_come_up() {
        let mut random = Random::new(12);
        let (mut matching, mut failing) = ([0; 16], [0; 16]);
        for _ in 0..1000 {
            let word = matching_word(&mut random, Row::Narrow);
            matching[(word >> 10 & 15) as usize] += 1;
            let word = failing_word(&mut random, Row::Narrow).unwrap();
            failing[(word >> 10 & 15) as usize] += 1;
        }
        assert!(matching.iter().chain(&failing).all(|&count| count > 20));
        let mut listed = [0; 16];
        for word in listing_words(3, 20_000) {
            if let Ok(Instruction::Narrow { bits, .. }) = decode(FULL, word) {
                listed[bits as usize] += 1;
            }
        }
        assert!(listed.iter().all(|&count| count > 50), "{listed:?}");
    }

    /// Document 01's point 3, and a size of its own.
    #[test]
    fn narrowing_words_by_hand() {
        assert_eq!(narrow_word(14, 2 * 8 - 8, 0, 0), 0x4528_3800);
        assert_eq!(narrow_word(14, 2 * 8 - 1, 0, 0), 0x452f_3800);
        assert_eq!(narrow_word(14, 2 * 32 - 32, 0, 0), 0x4560_3800);
        assert_eq!(narrow_word(14, 2 * 32 - 1, 0, 0), 0x457f_3800);
        assert_eq!(narrow_word(14, 0, 0, 0), 0x4520_3800);
        assert_eq!(narrow_word(9, 2 * 16 - 5, 31, 2), 0x453b_27e2);
    }

    /// Document 01's lister's word and point 11, and one of each layout with a
    /// number in every field.
    #[test]
    fn pext_words_by_hand() {
        assert_eq!(pext_word(0, 0, 1, 0, 0), 0x2520_7010);
        assert_eq!(pext_word(0, 0, 2, 0, 15), 0x2520_741f);
        assert_eq!(pext_word(3, 2, 1, 5, 6), 0x25e0_72b6);
        assert_eq!(pext_word(2, 2, 2, 7, 9), 0x25a0_75f9);
    }

    /// Document 01's point 10, and one with a number in every field.
    #[test]
    fn psel_words_by_hand() {
        assert_eq!(psel_word(0b00011, 0, 0, 0, 0), 0x252c_4000);
        assert_eq!(psel_word(0b11000, 0, 0, 0, 0), 0x25e0_4000);
        assert_eq!(psel_word(0, 0, 0, 0, 0), 0x2520_4000);
        assert_eq!(psel_word(0b10110, 3, 15, 1, 2), 0x25bb_7c22);
    }

    #[test]
    fn about_half_of_the_listing_words_match() {
        let matching = listing_words(1, 20_000)
            .filter(|&word| decode(FULL, word).is_ok())
            .count();
        assert!((9_500..10_500).contains(&matching), "{matching}");
    }

    #[test]
    fn spread_places_bits_in_order() {
        assert_eq!(spread(0b101, 0x13), 0x11);
        assert_eq!(spread(0b110, 0x13), 0x12);
        assert_eq!(spread(31, 0x00dc_0000), 0x00dc_0000);
    }
}
