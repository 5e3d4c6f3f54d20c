//! Words, the numbers of instructions, and stretches of words.

use reference::encode::encode;
use reference::instruction::{Form, Instruction, RETIRED_FORMS};
use reference::layout::{Row, has_features};
use reference::random::Random;
use reference::samples::{
    failing_word, fields_in_range, flipped_word, matching_word, values_outside,
};
use reference::setting::{FULL, Setting};
use reference::values::{FIELD_VALUES, FIRST_PORTIONS, NUMBERS_OF_PORTIONS, PRINTED_WORDS};

use super::one_in;
use super::retired::retired_list;

/// The narrowing words are sixteen, and come more often than the others.
const ROWS: [Row; 8] = [
    Row::Pext1,
    Row::Pext2,
    Row::Psel,
    Row::Luti4c,
    Row::Luti4s,
    Row::Narrow,
    Row::Narrow,
    Row::Narrow,
];

/// Mostly a word of a layout; else a bit or two away from one, failing its
/// condition, printed in document 01, or any.
pub fn word(random: &mut Random) -> u32 {
    let row = random.pick(&ROWS);
    match random.below(32) {
        0 | 1 => flipped_word(random, row, 1),
        2 => flipped_word(random, row, 2),
        3 => failing_word(random, row).unwrap_or_else(|| random.next_u32()),
        4 => random.pick(&PRINTED_WORDS),
        5 => random.next_u32(),
        6..=15 => matching_word(random, row),
        16..=23 => written(random, row, false),
        _ => written(random, row, true),
    }
}

/// A word with fields in range, all sizes alike; its registers, if they are to
/// be near, a few, so that words and their destinations meet.
fn written(random: &mut Random, row: Row, near: bool) -> u32 {
    let form = row.form();
    let mut fields = fields_in_range(random, row);
    if near {
        match form {
            Form::Pext => {
                fields[3] = random.pick(&[8, 9, 15]);
                fields[4] = random.pick(&[0, 7, 8, 9, 14, 15]);
            }
            Form::Psel => {
                for field in &mut fields[3..] {
                    *field = random.pick(&[0, 8, 9, 15]);
                }
            }
            Form::Luti4c => {
                fields[2] = random.pick(&[0, 1, 2, 3, 16, 17, 20, 28, 31]);
                fields[3] = random.pick(&[0, 16, 28]);
            }
            Form::Luti4s => {
                fields[2] = random.pick(&[0, 1, 4, 8, 12, 16, 17, 20, 28, 31]);
                fields[3] = random.pick(&[0, 1, 3, 16, 19]);
            }
            Form::Narrow => {
                fields[3] = random.pick(&[0, 1, 2, 3, 4, 16, 31]);
                fields[4] = random.pick(&[0, 1, 2, 3, 4, 16, 31]);
            }
        }
    }
    // All in range; a reference with a fault may not think so.
    encode(FULL, Instruction::from_fields(form, fields))
        .unwrap_or_else(|_| matching_word(random, row))
}

/// Fields in range, with one of them or more near its range and outside it, or
/// any of the numbers that may hurt; seldom no instruction at all, or one of a
/// form that is not used any more.
pub fn numbers(random: &mut Random) -> Vec<u32> {
    if one_in(random, 16) {
        let form = random.pick(&RETIRED_FORMS);
        return retired_list(random, form);
    }
    let row = random.pick(&ROWS);
    let form = row.form();
    let mut fields = fields_in_range(random, row);
    match random.below(5) {
        0 => {}
        1 => {
            let place = random.below(form.field_count() as u32) as usize;
            fields[place] = random.pick(values_outside(form, place));
        }
        2 => {
            let place = random.below(6) as usize;
            fields[place] = random.pick(&FIELD_VALUES);
        }
        3 if form == Form::Pext => {
            fields[1] = random.pick(&FIRST_PORTIONS);
            fields[2] = random.pick(&NUMBERS_OF_PORTIONS);
        }
        _ => {
            for field in &mut fields {
                if one_in(random, 4) {
                    *field = match random.below(3) {
                        0 => *field ^ 1 << random.below(32),
                        1 => field.wrapping_add(1),
                        _ => random.next_u32(),
                    };
                }
            }
        }
    }
    let mut numbers = vec![form.number() - 1];
    numbers.extend_from_slice(&fields);
    if one_in(random, 16) {
        numbers[0] = random.pick(&NUMBERS_OF_NO_FORM);
    }
    if one_in(random, 16) {
        numbers.resize(random.pick(&[0, 1, 4, 5, 6, 8, 14]), 0);
    }
    numbers
}

/// Some would be 2 or 7 after a cast.
const NUMBERS_OF_NO_FORM: [u32; 10] = [
    0,
    1,
    5,
    8,
    9,
    256 + 2,
    256 + 7,
    65536 + 7,
    (1 << 31) + 7,
    u32::MAX,
];

/// Mostly defined under the setting, with copies and registers that meet; one
/// time in two with a word that is damaged.
pub fn stretch(random: &mut Random, setting: Setting) -> Vec<u32> {
    let length = match random.below(40) {
        0 => random.pick(&[255, 256, 257, 258, 300]),
        1..=4 => random.below(257),
        _ => random.below(32),
    };
    let mut words = defined_words(random, setting, length as usize);
    if !words.is_empty() && random.coin() {
        let place = random.below(words.len() as u32) as usize;
        words[place] = match random.below(3) {
            0 => word(random),
            1 => 0,
            _ => words[place] ^ 1 << random.below(32),
        };
    }
    words
}

/// Of any row where the setting has none.
pub fn defined_words(random: &mut Random, setting: Setting, length: usize) -> Vec<u32> {
    let mut rows: Vec<Row> = ROWS
        .into_iter()
        .filter(|&row| has_features(row, setting))
        .collect();
    if rows.is_empty() {
        rows.extend(ROWS);
    }
    let near = random.coin();
    let mut words = Vec::with_capacity(length);
    for _ in 0..length {
        if !words.is_empty() && one_in(random, 8) {
            words.push(random.pick(&words));
        } else {
            let row = random.pick(&rows);
            words.push(written(random, row, near));
        }
    }
    words
}

#[cfg(test)]
mod tests {
    use super::*;
    use std::collections::BTreeSet;

    use reference::encode::in_range;

    use crate::draw::retired_values;

    /// Each first portion with each number of them, all else in range; lists that a
    /// retired form had in range, and lists of PEXT with its number.
    #[test]
    fn every_kind_of_list_comes() {
        let mut random = Random::new(6);
        let (mut pairs, mut retired) = (BTreeSet::new(), BTreeSet::new());
        for _ in 0..200_000 {
            let numbers = numbers(&mut random);
            let &[number, a, b, c, d, e, f] = &numbers[..] else {
                continue;
            };
            let pext = |first, portions| {
                in_range(Instruction::from_fields(
                    Form::Pext,
                    [a, first, portions, d, e, f],
                ))
            };
            if number == 7 && pext(0, 1) {
                pairs.insert((b, c));
            }
            if RETIRED_FORMS.contains(&number) {
                let old = retired_values(number)
                    .iter()
                    .zip(&numbers[1..])
                    .all(|(values, value)| values.contains(value));
                retired.insert((number, old, pext(b, c)));
            }
        }
        for first in FIRST_PORTIONS {
            for portions in NUMBERS_OF_PORTIONS {
                assert!(pairs.contains(&(first, portions)), "{first} {portions}");
            }
        }
        for form in RETIRED_FORMS {
            assert!(retired.contains(&(form, true, false)), "{form}");
            assert!(retired.contains(&(form, false, true)), "{form}");
        }
    }
}
