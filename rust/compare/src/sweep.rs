//! All words, and all fields: both programs on every one of them.

use std::sync::Mutex;

use gighull::ffi;
use reference::instruction::{Form, RETIRED_FORMS};
use reference::layout::LAYOUTS;
use reference::refusal::number_of;
use reference::samples::spread;
use reference::setting::{Setting, VECTOR_LENGTHS};
use reference::values::{FIRST_PORTIONS, NUMBERS_OF_PORTIONS};

use crate::campaign::Found;
use crate::case::Case;
use crate::check::{check, numbers, reference_encode};
use crate::draw::{ALLOWED_FEATURES, retired_values};
use crate::names::{self, Counts};
use crate::threads::spread_over;

/// How many words are read by each name under each allowed feature number.
pub type Accepted = [Counts; ALLOWED_FEATURES.len()];

/// What stands in the fields before a word is read.
const MARK: [u32; ffi::FIELDS] = [0xa5a5_a5a5; ffi::FIELDS];

/// Every word from `from` to `to`, under each allowed feature number. The
/// vector length changes from chunk to chunk.
pub fn decode(from: u32, to: u32, threads: usize) -> Result<Accepted, Box<Found>> {
    const CHUNK: u64 = 1 << 16;
    let first = u64::from(from) / CHUNK;
    let chunks = u64::from(to) / CHUNK - first + 1;
    let total = u64::from(to - from) + 1;
    let accepted = Mutex::new(Accepted::default());
    let words = |chunk: u64| {
        let start = (first + chunk) * CHUNK;
        let start = start.max(u64::from(from)) as u32;
        start..=to.min(start | (CHUNK - 1) as u32)
    };
    let done = spread_over(threads, "sweep-decode", chunks, total, |chunk| {
        let vl = VECTOR_LENGTHS[(chunk % 5) as usize];
        let mut own = Accepted::default();
        for word in words(chunk) {
            one_word(vl, word, &mut own)?;
        }
        join(&accepted, &own);
        Ok(())
    });
    done.map_err(found)?;
    Ok(accepted.into_inner().unwrap())
}

/// Every word with the fixed bits of a layout, and every word with one of these
/// bits the other way, under each allowed feature number.
pub fn near(threads: usize) -> Result<(u64, Accepted), Box<Found>> {
    // A layout, the bit that is turned (or none), and a part of the numbers
    // that its fields may be together.
    const PART: u32 = 1 << 14;
    let mut chunks = Vec::new();
    let mut words = 0;
    for layout in &LAYOUTS {
        let fields: u32 = 1 << (!layout.mask).count_ones();
        let turns = (0..32).map(|bit| layout.mask & 1 << bit);
        for turn in turns.filter(|&turn| turn != 0).chain([0]) {
            for start in (0..fields).step_by(PART as usize) {
                let end = fields.min(start + PART);
                words += u64::from(end - start);
                chunks.push((layout, turn, start..end));
            }
        }
    }
    let accepted = Mutex::new(Accepted::default());
    let count = chunks.len() as u64;
    let done = spread_over(threads, "near", count, words, |chunk| {
        let (layout, turn, fields) = chunks[chunk as usize].clone();
        let vl = VECTOR_LENGTHS[(chunk % 5) as usize];
        let mut own = Accepted::default();
        for field in fields {
            let word = (layout.value | spread(field, !layout.mask)) ^ turn;
            one_word(vl, word, &mut own)?;
        }
        join(&accepted, &own);
        Ok(())
    });
    done.map_err(found)?;
    Ok((words, accepted.into_inner().unwrap()))
}

fn join(accepted: &Mutex<Accepted>, own: &Accepted) {
    let mut accepted = accepted.lock().unwrap();
    for (sums, counts) in accepted.iter_mut().zip(own) {
        names::add(sums, counts);
    }
}

fn found(case: Box<Case>) -> Box<Found> {
    let difference = check(&case).err();
    let difference = difference.unwrap_or_else(|| "seen in the sweep alone".into());
    Box::new(Found::of(0, &case, difference))
}

/// Both programs on one word, under each allowed feature number. A refused word
/// leaves the fields as they were.
#[inline]
fn one_word(vl: u32, word: u32, accepted: &mut Accepted) -> Result<(), Box<Case>> {
    for (features, counts) in ALLOWED_FEATURES.into_iter().zip(accepted) {
        let setting = Setting { vl, features };
        let expected = match reference::decode::decode(setting, word) {
            Ok(instruction) => {
                names::count(instruction, counts);
                (0, numbers(instruction))
            }
            Err(refusal) => (refusal.number(), MARK),
        };
        let mut fields = MARK;
        let number = ffi::decode(vl, features, word, &mut fields);
        if (number, fields) != expected {
            return Err(Box::new(Case::Decode {
                setting,
                word,
                room: ffi::FIELDS,
            }));
        }
    }
    Ok(())
}

/// How many questions had each answer.
pub type Answers = [u64; 10];

/// Every combination of the values below, for every form and for those that are
/// not used any more, under each allowed feature number and some settings that are
/// not allowed.
pub fn encode(threads: usize) -> Result<Answers, Box<Found>> {
    let retired = RETIRED_FORMS.into_iter().map(Grid::of_retired);
    let grids: Vec<Grid> = Form::ALL.into_iter().map(Grid::of).chain(retired).collect();
    let chunks: u64 = grids.iter().map(Grid::chunks).sum();
    let total = grids.iter().map(|grid| grid.count).sum();
    let answers = Mutex::new(Answers::default());
    let done = spread_over(threads, "sweep-encode", chunks, total, |chunk| {
        let mut rest = chunk;
        let grid = grids
            .iter()
            .find(|grid| {
                let here = rest < grid.chunks();
                if !here {
                    rest -= grid.chunks();
                }
                here
            })
            .expect("the chunk is one of all");
        let vl = VECTOR_LENGTHS[(chunk % 5) as usize];
        let mut own = Answers::default();
        for index in rest * Grid::CHUNK..grid.count.min((rest + 1) * Grid::CHUNK) {
            one_writing(vl, &grid.numbers(index), &mut own)?;
        }
        let mut answers = answers.lock().unwrap();
        for (sum, count) in answers.iter_mut().zip(own) {
            *sum += count;
        }
        Ok(())
    });
    done.map_err(found)?;
    Ok(answers.into_inner().unwrap())
}

fn one_writing(vl: u32, numbers: &[u32; 7], answers: &mut Answers) -> Result<(), Box<Case>> {
    let allowed = ALLOWED_FEATURES.map(|features| Setting { vl, features });
    let others = [(vl + 1, 31), (vl, 2), (vl, 32)].map(|(vl, features)| Setting { vl, features });
    for setting in allowed.into_iter().chain(others) {
        let answer = reference_encode(setting, numbers);
        let number = number_of(&answer);
        let mut word = !0;
        let found = ffi::encode(setting.vl, setting.features, numbers, &mut word);
        if (number, answer.unwrap_or(0)) != (found, word) {
            return Err(Box::new(Case::Encode {
                setting,
                numbers: numbers.to_vec(),
            }));
        }
        answers[number as usize] += 1;
    }
    Ok(())
}

/// The values of a form's fields: all in the range, those next to it, and some
/// that are in it after a cast.
struct Grid {
    /// The first number of its lists.
    form: u32,
    values: [Vec<u32>; 6],
    count: u64,
}

impl Grid {
    const CHUNK: u64 = 1 << 14;

    fn of(form: Form) -> Grid {
        let sizes = vec![
            0, 1, 2, 4, 7, 8, 9, 12, 15, 16, 17, 24, 31, 32, 33, 48, 63, 64, 65, 128, 264, 65552,
        ];
        let upto = |last: u32| -> Vec<u32> { (0..=last).collect() };
        // The register's numbers, two above, and one that a cast makes 0.
        let registers = |count: u32| -> Vec<u32> { (0..count + 2).chain([256]).collect() };
        let none = || vec![0];
        let values = match form {
            Form::Pext => [
                sizes,
                FIRST_PORTIONS.into_iter().chain(7..10).collect(),
                NUMBERS_OF_PORTIONS.to_vec(),
                registers(16),
                registers(16),
                none(),
            ],
            Form::Psel => [
                vec![0, 1, 7, 8, 9, 16, 24, 32, 63, 64, 65, 128],
                upto(17),
                (10..18).collect(),
                upto(16),
                upto(16),
                upto(16),
            ],
            Form::Luti4c | Form::Luti4s => {
                [sizes, upto(4), registers(32), upto(40), none(), none()]
            }
            Form::Narrow => [
                upto(17),
                vec![0, 8, 9, 16, 24, 32, 64, 264],
                (0..=33).chain([264]).collect(),
                registers(32),
                registers(32),
                none(),
            ],
        };
        Grid::new(form.number() - 1, values)
    }

    /// What the form had in range.
    fn of_retired(form: u32) -> Grid {
        Grid::new(form, retired_values(form))
    }

    fn new(form: u32, values: [Vec<u32>; 6]) -> Grid {
        let count = values.iter().map(|values| values.len() as u64).product();
        Grid {
            form,
            values,
            count,
        }
    }

    fn chunks(&self) -> u64 {
        self.count.div_ceil(Grid::CHUNK)
    }

    fn numbers(&self, mut index: u64) -> [u32; 7] {
        let mut numbers = [self.form; 7];
        for (number, values) in numbers[1..].iter_mut().zip(&self.values) {
            let length = values.len() as u64;
            *number = values[(index % length) as usize];
            index /= length;
        }
        numbers
    }
}

#[cfg(test)]
mod tests {
    use super::*;
    use reference::refusal::Refusal;
    use reference::setting::FULL;

    #[test]
    fn a_retired_form_is_9_behind_1() {
        let wrong = Setting {
            features: 2,
            ..FULL
        };
        for form in RETIRED_FORMS {
            let grid = Grid::of_retired(form);
            assert!(grid.count >= 1024, "{form}");
            for index in 0..grid.count {
                let numbers = grid.numbers(index);
                assert_eq!(reference_encode(FULL, &numbers), Err(Refusal::Range));
                assert_eq!(reference_encode(wrong, &numbers), Err(Refusal::Setting));
            }
        }
    }
}
