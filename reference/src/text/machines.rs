//! Lines of the questions that start from a whole machine (kinds 7 and 9).

use super::{NUMBER_BYTES, RUN_KIND, STEP_KIND, list_bytes, numbers_line, read_list, read_numbers};
use crate::expand::Contents;
use crate::machine::Flags;
use crate::run_question::RunQuestion;
use crate::setting::Setting;
use crate::start::{Start, from_halves, halves};
use crate::step_question::StepQuestion;

pub const STEP_QUESTION_BYTES: usize = 20 * NUMBER_BYTES;

/// Up to the count of words.
const RUN_HEAD_BYTES: usize = 20 * NUMBER_BYTES;
const COUNT_PLACE: usize = 19;

/// A question is not asked about files longer than this, so that a wrong line
/// cannot take all memory.
pub const LONGEST_FILE: u32 = 1 << 20;

pub fn step_question_line(question: &StepQuestion) -> String {
    let Setting { vl, features } = question.start.setting;
    let mut numbers = vec![STEP_KIND, vl, features, question.word];
    numbers.extend(machine_numbers(&question.start));
    numbers_line(&numbers)
}

/// Refuses everything that `step_question_line` could not have written, and
/// files that are too long.
pub fn read_step_question(line: &[u8]) -> Result<StepQuestion, String> {
    let [kind, vl, features, word, machine @ ..] = read_numbers::<20>(line)?;
    if kind != STEP_KIND {
        return Err(format!("there is no kind {kind:08x} of this length"));
    }
    let start = read_start(Setting { vl, features }, machine)?;
    Ok(StepQuestion { start, word })
}

pub fn run_question_line(question: &RunQuestion) -> String {
    let Setting { vl, features } = question.start.setting;
    let mut numbers = vec![RUN_KIND, vl, features];
    numbers.extend(machine_numbers(&question.start));
    numbers.push(question.words.len() as u32);
    numbers.extend(&question.words);
    numbers_line(&numbers)
}

/// As `question_bytes`, for a run.
pub fn run_question_bytes(start: &[u8]) -> Result<usize, String> {
    if start.len() < RUN_HEAD_BYTES {
        return Ok(RUN_HEAD_BYTES);
    }
    Ok(RUN_HEAD_BYTES + list_bytes(start, COUNT_PLACE)?)
}

/// Refuses everything that `run_question_line` could not have written, and
/// files that are too long.
pub fn read_run_question(line: &[u8]) -> Result<RunQuestion, String> {
    let numbers = read_list(line)?;
    let Some((head, words)) = numbers.split_first_chunk::<20>() else {
        return Err("not twenty numbers".to_string());
    };
    let [RUN_KIND, vl, features, machine @ .., count] = *head else {
        return Err("not a question of this kind".to_string());
    };
    if words.len() as u64 != u64::from(count) {
        return Err("not as many words as it says".to_string());
    }
    let start = read_start(Setting { vl, features }, machine)?;
    let words = words.to_vec();
    Ok(RunQuestion { start, words })
}

/// Everything of the start but its setting, in the order of the lines.
fn machine_numbers(start: &Start) -> [u32; 16] {
    let [w12, w13, w14, w15] = start.w;
    let (pc_high, pc_low) = halves(start.pc);
    let contents = &start.contents;
    let (seed_high, seed_low) = halves(contents.seed);
    [
        start.flags.number(),
        w12,
        w13,
        w14,
        w15,
        pc_high,
        pc_low,
        seed_high,
        seed_low,
        contents.z_length,
        contents.p_length,
        contents.zt_length,
        contents.p_at,
        u32::from(contents.p_value),
        contents.z_at,
        contents.z_value,
    ]
}

fn read_start(setting: Setting, machine: [u32; 16]) -> Result<Start, String> {
    let [
        flags,
        w12,
        w13,
        w14,
        w15,
        pc_high,
        pc_low,
        seed_high,
        seed_low,
        z_length,
        p_length,
        zt_length,
        p_at,
        p_value,
        z_at,
        z_value,
    ] = machine;
    let Some(flags) = Flags::from_number(flags) else {
        return Err("the flags are more than three bits".to_string());
    };
    let Ok(p_value) = u16::try_from(p_value) else {
        return Err("the value for the P file is more than 16 bits".to_string());
    };
    if z_length.max(p_length).max(zt_length) > LONGEST_FILE {
        return Err("a file is too long to be asked about".to_string());
    }
    Ok(Start {
        setting,
        flags,
        w: [w12, w13, w14, w15],
        pc: from_halves(pc_high, pc_low),
        contents: Contents {
            seed: from_halves(seed_high, seed_low),
            z_length,
            p_length,
            zt_length,
            p_at,
            p_value,
            z_at,
            z_value,
        },
    })
}

#[cfg(test)]
mod tests {
    use super::super::question_bytes;
    use super::*;
    use crate::expand::NO_OVERRIDE;

    const STEP_LINE: &[u8; STEP_QUESTION_BYTES] =
        b"00000007 00000100 0000001f 25207010 00000005 0000000c 0000000d 0000000e 0000000f \
          01234567 89abcdef 76543210 fedcba98 00002000 00000200 00000040 00000100 00008001 \
          ffffffff 00000000\n";

    const START: Start = Start {
        setting: Setting {
            vl: 256,
            features: 31,
        },
        flags: Flags {
            v: true,
            s: false,
            t: true,
        },
        w: [12, 13, 14, 15],
        pc: 0x0123_4567_89ab_cdef,
        contents: Contents {
            seed: 0x7654_3210_fedc_ba98,
            z_length: 8192,
            p_length: 512,
            zt_length: 64,
            p_at: 256,
            p_value: 0x8001,
            z_at: NO_OVERRIDE,
            z_value: 0,
        },
    };

    #[test]
    fn a_step_line_is_read_and_written() {
        let question = read_step_question(STEP_LINE).unwrap();
        let expected = StepQuestion {
            start: START,
            word: 0x2520_7010,
        };
        assert_eq!(question, expected);
        assert_eq!(step_question_line(&question).as_bytes(), STEP_LINE);
        assert_eq!(question_bytes(&STEP_LINE[..81]), Ok(STEP_QUESTION_BYTES));
    }

    #[test]
    fn a_run_line_is_read_and_written() {
        let line = b"00000009 00000100 0000001f 00000005 0000000c 0000000d 0000000e 0000000f \
                     01234567 89abcdef 76543210 fedcba98 00002000 00000200 00000040 00000100 \
                     00008001 ffffffff 00000000 00000002 25207010 2520741f\n";
        let question = read_run_question(line).unwrap();
        let expected = RunQuestion {
            start: START,
            words: vec![0x2520_7010, 0x2520_741f],
        };
        assert_eq!(question, expected);
        assert_eq!(run_question_line(&question).as_bytes(), line);
        assert_eq!(question_bytes(&line[..81]), Ok(RUN_HEAD_BYTES));
        assert_eq!(question_bytes(&line[..RUN_HEAD_BYTES]), Ok(line.len()));
        let spoilt = |place: usize, byte: u8| {
            let mut line = *line;
            line[place] = byte;
            (question_bytes(&line), read_run_question(&line))
        };
        assert_eq!(spoilt(9 * 19 + 7, b'1').0, Ok(line.len() - 9));
        assert!(spoilt(9 * 19 + 7, b'3').1.is_err()); // a word more than there are
        assert!(spoilt(9 * 19, b'1').0.is_err()); // far too many
        assert!(spoilt(7, b'7').1.is_err());
        assert!(spoilt(9 * 3 + 7, b'8').1.is_err()); // a fourth flag
        assert!(spoilt(9 * 20 - 1, b'\n').1.is_err()); // a line in two
        assert!(read_run_question(&line[..RUN_HEAD_BYTES]).is_err());
    }

    #[test]
    fn a_run_of_nothing_ends_after_its_count() {
        let question = RunQuestion {
            start: START,
            words: Vec::new(),
        };
        let line = run_question_line(&question);
        assert_eq!(line.len(), RUN_HEAD_BYTES);
        assert!(line.ends_with(" 00000000\n"));
        assert_eq!(question_bytes(line.as_bytes()), Ok(RUN_HEAD_BYTES));
        assert_eq!(read_run_question(line.as_bytes()), Ok(question));
    }

    #[test]
    fn other_step_lines_are_refused() {
        let spoilt = |place: usize, byte: u8| {
            let mut line = *STEP_LINE;
            line[place] = byte;
            read_step_question(&line)
        };
        assert!(spoilt(179, b' ').is_err());
        assert!(spoilt(7, b'0').is_err());
        assert!(spoilt(9 * 4 + 7, b'8').is_err()); // a fourth flag
        assert!(spoilt(9 * 17 + 3, b'1').is_err()); // seventeen bits for P
        assert!(spoilt(9 * 13, b'1').is_err()); // a Z file of 256 MiB
        assert!(spoilt(9 * 4 + 7, b'7').is_ok());
        assert!(read_step_question(&STEP_LINE[..179]).is_err());
    }
}
