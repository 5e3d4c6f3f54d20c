//! The proved library, over its C interface, against the reference: words and
//! instructions, register bytes and listings. Steps and runs are in
//! `interpreter.rs`.

use std::collections::BTreeSet;

use gighull::ffi;
use reference::encode::encode;
use reference::instruction::{Form, Instruction};
use reference::layout::Row;
use reference::random::Random;
use reference::refusal::number_of;
use reference::samples::{
    failing_word, fields_in_range, listing_words, matching_word, near_miss, values_outside,
};
use reference::setting::{ALL_FEATURES, FULL, Setting, VECTOR_LENGTHS};
use reference::stretches::any_setting;
use reference::values::{FIRST_PORTIONS, NUMBERS_OF_PORTIONS};

fn raw_encode(vl: u32, features: u32, numbers: &[u32]) -> (u32, u32) {
    let mut word = 77;
    let number = ffi::encode(vl, features, numbers, &mut word);
    (number, word)
}

fn raw_lines(input: &[u8], out: &mut [u8]) -> (usize, usize) {
    let mut written = 77;
    let read = ffi::lines(input, out, &mut written);
    (read, written)
}

/// Settings, some of them not allowed: 65664 is 128 in its low 16 bits.
fn setting_of_any_kind(random: &mut Random) -> Setting {
    if random.coin() {
        return any_setting(random);
    }
    Setting {
        vl: random.pick(&[0, 64, 128, 129, 256, 384, 2048, 4096, 65664, u32::MAX]),
        features: random.pick(&[0, 2, 8, 16, 31, 32, 63, 287, u32::MAX]),
    }
}

fn same_reading(setting: Setting, word: u32) -> u32 {
    let Setting { vl, features } = setting;
    let answer = reference::decode::decode(setting, word);
    let number = number_of(&answer);
    let mut expected = [77; 7];
    if let Ok(instruction) = answer {
        expected[0] = instruction.form().number() - 1;
        expected[1..].copy_from_slice(&instruction.fields());
    }
    let mut fields = [77; 7];
    assert_eq!(ffi::decode(vl, features, word, &mut fields), number);
    assert_eq!(fields, expected, "{word:08x} under {setting:?}");
    for length in [0, 1, 6, 8, 9] {
        let mut other = vec![77; length];
        assert_eq!(ffi::decode(vl, features, word, &mut other), number);
        assert_eq!(other, vec![77; length]);
    }
    if number == 0 {
        assert_eq!(raw_encode(vl, features, &fields), (0, word));
        let instruction = gighull::Instruction::from_numbers(fields).unwrap();
        assert_eq!(instruction.numbers(), fields);
    }
    number
}

#[test]
fn readings() {
    let mut random = Random::new(63);
    let mut counts = [0; 10];
    for round in 0..20_000 {
        let row = random.pick(&Row::ALL);
        let word = match round % 4 {
            0 => matching_word(&mut random, row),
            1 => failing_word(&mut random, row).unwrap_or_default(),
            2 => near_miss(&mut random),
            _ => random.next_u32(),
        };
        let setting = setting_of_any_kind(&mut random);
        counts[same_reading(setting, word) as usize] += 1;
    }
    let [done, not_allowed, _, undefined, ..] = counts;
    assert!(
        done > 1000 && not_allowed > 1000 && undefined > 1000,
        "{counts:?}"
    );
}

fn same_writing(setting: Setting, form: Form, fields: [u32; 6]) -> u32 {
    let instruction = Instruction::from_fields(form, fields);
    let answer = encode(setting, instruction);
    let expected = (number_of(&answer), answer.unwrap_or(0));
    let mut numbers = [form.number() - 1; 7];
    numbers[1..].copy_from_slice(&fields);
    let found = raw_encode(setting.vl, setting.features, &numbers);
    assert_eq!(found, expected, "{instruction:?} under {setting:?}");
    found.0
}

#[test]
fn writings() {
    let mut random = Random::new(64);
    let mut counts = [0; 10];
    for _ in 0..5_000 {
        let row = random.pick(&Row::ALL);
        let (form, fields) = (row.form(), fields_in_range(&mut random, row));
        let setting = setting_of_any_kind(&mut random);
        counts[same_writing(setting, form, fields) as usize] += 1;
        for place in 0..form.field_count() {
            let mut outside = fields;
            outside[place] = random.pick(values_outside(form, place));
            counts[same_writing(setting, form, outside) as usize] += 1;
        }
        // What a form does not look at.
        let mut more = fields;
        for field in &mut more[form.field_count()..] {
            *field = random.next_u32();
        }
        same_writing(setting, form, more);
    }
    let [done, not_allowed, _, undefined, _, _, _, _, _, out_of_range] = counts;
    let all = [done, not_allowed, undefined, out_of_range];
    assert!(all.iter().all(|&count| count > 100), "{counts:?}");
}

/// Every first portion with every number of them, some of which a cast would
/// bring into range.
#[test]
fn portions() {
    let mut accepted = Vec::new();
    for first in FIRST_PORTIONS {
        for portions in NUMBERS_OF_PORTIONS {
            let fields = [16, first, portions, 9, 15, 0];
            if same_writing(FULL, Form::Pext, fields) == 0 {
                accepted.push((first, portions));
            }
        }
    }
    assert_eq!(accepted, [(0, 1), (0, 2), (1, 1), (2, 1), (2, 2), (3, 1)]);
}

/// The forms 0, 1 and 5, also with lists that they had in range, a form above 7, a
/// narrowing word above 15 and lists of another length are 9, where the setting is
/// allowed.
#[test]
fn writings_of_no_instruction() {
    const FORMS: [u32; 9] = [0, 1, 5, 8, 9, 256 + 7, 65536 + 2, (1 << 31) + 7, u32::MAX];
    let lists = [
        [8, 1, 8, 3, 0, 0],
        [8, 1, 1, 8, 3, 0],
        [8, 8, 8, 8, 0, 0],
        [8, 1, 12, 1, 2, 3],
        [u32::MAX; 6],
    ];
    let forms = FORMS
        .into_iter()
        .flat_map(|form| lists.map(|[a, b, c, d, e, f]| [form, a, b, c, d, e, f]));
    let words = [16, 17, 256, 65536, u32::MAX].map(|word| [6, word, 8, 8, 8, 0, 0]);
    for numbers in forms.chain(words) {
        assert_eq!(gighull::Instruction::from_numbers(numbers), None);
        assert_eq!(raw_encode(128, ALL_FEATURES, &numbers), (9, 0));
        assert_eq!(raw_encode(128, 0, &numbers), (9, 0));
        assert_eq!(raw_encode(128, 32, &numbers), (1, 0));
        assert_eq!(raw_encode(129, ALL_FEATURES, &numbers), (1, 0));
    }
    for length in [0, 1, 4, 5, 6, 8, 14] {
        let numbers = vec![0; length];
        assert_eq!(raw_encode(128, ALL_FEATURES, &numbers), (9, 0));
        assert_eq!(raw_encode(0, ALL_FEATURES, &numbers), (1, 0));
    }
}

/// A word's name is that of its form, for PEXT with its portions behind it, stands
/// in its line, and is the reference's.
#[test]
fn names() {
    let mut random = Random::new(67);
    let mut seen = BTreeSet::new();
    for _ in 0..5_000 {
        let row = random.pick(&Row::ALL);
        let word = matching_word(&mut random, row);
        let instruction = gighull::decode(gighull::Setting::FULL, word).unwrap();
        let form = instruction.form();
        let name = match instruction {
            gighull::Instruction::Pext { portions, .. } => format!("{form}{portions}"),
            _ => form.to_string(),
        };
        let expected = reference::decode::decode(FULL, word).unwrap();
        assert_eq!(name, expected.name());
        let line = format!("{word:08x} {name}\n");
        assert_eq!(gighull::lines(&word.to_le_bytes()), line);
        seen.insert(name);
    }
    assert_eq!(seen.len(), gighull::Form::ALL.len() + 1);
}

type Request = fn(&[u8], u32, u32, &mut [u8]) -> usize;

/// Every register and some that are not, at every VL and some that are not, of
/// files of right and wrong lengths, into buffers of many lengths.
fn requests(request: Request, slots: u32, slot: usize, bytes_of: fn(u32) -> usize) {
    let mut random = Random::new(65);
    let whole = slots as usize * slot;
    let file: Vec<u8> = (0..whole + 1).map(|_| random.next_u32() as u8).collect();
    for vl in VECTOR_LENGTHS.into_iter().chain([0, 64, 129, 192, 65664]) {
        for register in (0..slots + 2).chain([256, 65536, u32::MAX]) {
            for length in [0, whole - 1, whole, whole + 1] {
                let answered = VECTOR_LENGTHS.contains(&vl) && register < slots && length == whole;
                let count = if answered { bytes_of(vl) } else { 0 };
                for room in [0, 1, bytes_of(vl).saturating_sub(1), bytes_of(vl), 300] {
                    let count = if room < count { 0 } else { count };
                    let mut expected = vec![0xa5; room];
                    if count > 0 {
                        let at = register as usize * slot;
                        expected[..count].copy_from_slice(&file[at..at + count]);
                    }
                    let mut out = vec![0xa5; room];
                    let found = request(&file[..length], vl, register, &mut out);
                    assert_eq!((found, &out), (count, &expected), "VL {vl}, {register}");
                }
            }
        }
    }
}

#[test]
fn register_bytes() {
    requests(ffi::vector, 32, 256, |vl| vl as usize / 8);
    requests(ffi::predicate, 16, 32, |vl| vl as usize / 64);
}

#[test]
fn listings() {
    let mut random = Random::new(66);
    for count in 0..200 {
        let words: Vec<u32> = listing_words(random.next_u64(), count / 4 + 1).collect();
        let mut input: Vec<u8> = words.iter().flat_map(|word| word.to_le_bytes()).collect();
        input.truncate(count as usize);
        for room in [0, 18, 19, 20, 38, 190, 19 * (input.len() / 4 + 1)] {
            let read = input.len().min(4 * (room / 19));
            let text = reference::lister::list(&input[..read]);
            let mut expected = vec![0xa5; room];
            expected[..text.len()].copy_from_slice(&text);
            let mut out = vec![0xa5; room];
            assert_eq!(raw_lines(&input, &mut out), (read, text.len()));
            assert_eq!(out, expected);
        }
    }
}
