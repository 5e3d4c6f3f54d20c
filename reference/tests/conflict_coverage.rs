//! Whether the conflict questions ask what they are meant to ask, and whether
//! the answers agree with document 01's table written out once more by masks.

mod masks;

use std::collections::HashSet;

use masks::{conflict, masks};
use reference::conflict_questions::generate;
use reference::decode::decode;
use reference::instruction::Instruction;
use reference::layout::Row;
use reference::question::Question;
use reference::setting::{FULL, Setting};
use reference::text::{QUESTION_BYTES, question_line, read_question};

const SEEDS: [u64; 3] = [1, 77, u64::MAX];

fn pairs(seed: u64) -> Vec<(Setting, u32, u32, [u32; 2])> {
    generate(seed)
        .iter()
        .map(|question| match *question {
            Question::Conflict {
                setting,
                first,
                second,
            } => {
                let answer = question.answer();
                assert_eq!(answer[2..], [0; 6]);
                (setting, first, second, [answer[0], answer[1]])
            }
            _ => panic!("not about a conflict"),
        })
        .collect()
}

#[test]
fn answers_agree_with_the_masks() {
    for seed in SEEDS {
        for (setting, first, second, [number, value]) in pairs(seed) {
            if number != 0 {
                assert_eq!(value, 0);
                assert_eq!(number == 1, !setting.is_allowed());
                continue;
            }
            assert_eq!(
                value == 1,
                conflict(first, second),
                "{first:08x} {second:08x}"
            );
        }
    }
}

#[test]
fn both_orders_with_one_answer() {
    for seed in SEEDS {
        let pairs = pairs(seed);
        let asked: HashSet<(Setting, u32, u32, [u32; 2])> = pairs.iter().copied().collect();
        for &(setting, first, second, answer) in &pairs {
            assert!(asked.contains(&(setting, second, first, answer)));
            if first == second && answer[0] == 0 {
                assert_eq!(answer[1], 1);
            }
        }
    }
}

#[test]
fn every_answer_and_every_pair_of_rows() {
    for seed in SEEDS {
        let pairs = pairs(seed);
        for answer in [[0, 0], [0, 1], [1, 0], [3, 0]] {
            let count = pairs.iter().filter(|pair| pair.3 == answer).count();
            assert!(count > 90, "{answer:?}: {count}");
        }
        let row = |word: u32| decode(FULL, word).map(|i| i.row());
        for a in Row::ALL {
            for b in Row::ALL {
                let answers: HashSet<u32> = pairs
                    .iter()
                    .filter(|pair| pair.3[0] == 0 && row(pair.1) == Ok(a) && row(pair.2) == Ok(b))
                    .map(|pair| pair.3[1])
                    .collect();
                let predicates = |row| matches!(row, Row::Pext1 | Row::Pext2 | Row::Psel);
                let expected: &[u32] = if predicates(a) == predicates(b) {
                    &[0, 1]
                } else {
                    &[0]
                };
                let expected = expected.iter().copied().collect();
                assert_eq!(answers, expected, "{a:?} {b:?}");
            }
        }
    }
}

/// Any two of the sixteen narrowing words, with both answers; each beside both
/// lookups too.
#[test]
fn every_pair_of_narrowing_words() {
    for seed in SEEDS {
        let mut asked = HashSet::new();
        let mut beside_lookups = HashSet::new();
        for (_, first, second, [number, value]) in pairs(seed) {
            if number != 0 {
                continue;
            }
            let [first, second] = [first, second].map(|word| decode(FULL, word).unwrap());
            match (first, second) {
                (Instruction::Narrow { bits, .. }, Instruction::Narrow { bits: other, .. }) => {
                    asked.insert((bits, other, value));
                }
                (Instruction::Narrow { bits, .. }, other) => {
                    if matches!(other.row(), Row::Luti4c | Row::Luti4s) {
                        beside_lookups.insert((bits, other.row(), value));
                    }
                }
                _ => {}
            }
        }
        assert_eq!(asked.len(), 16 * 16 * 2);
        assert_eq!(beside_lookups.len(), 16 * 2 * 2);
    }
}

/// PSEL with SVE2p1 alone: both answers beside the rows of predicates, by each
/// of its registers; refused beside a lookup, and with SVE2 alone.
#[test]
fn psel_without_sme() {
    for seed in SEEDS {
        let mut asked = HashSet::new();
        let mut met = HashSet::new();
        for (setting, first, second, answer) in pairs(seed) {
            let [psel, other] = [first, second].map(|word| decode(FULL, word));
            let (Ok(Instruction::Psel { pn, pm, pd, .. }), Ok(other)) = (psel, other) else {
                continue;
            };
            asked.insert((setting.features, other.row(), answer));
            let (_, written) = masks(second);
            for (role, register) in [("Pn", pn), ("Pm", pm), ("Pd", pd)] {
                if setting.features == 3 && written >> (32 + register) & 1 == 1 {
                    met.insert((role, other.row()));
                }
            }
        }
        for row in Row::ALL {
            let expected: &[[u32; 2]] = match row {
                Row::Pext1 | Row::Pext2 | Row::Psel => &[[0, 0], [0, 1]],
                Row::Narrow => &[[0, 0]],
                Row::Luti4c | Row::Luti4s => &[[3, 0]],
            };
            for &answer in expected {
                assert!(asked.contains(&(3, row, answer)), "{row:?} {answer:?}");
            }
            assert!(asked.contains(&(1, row, [3, 0])), "{row:?}");
        }
        assert_eq!(met.len(), 3 * 3, "{met:?}");
        for features in [3, 4, 5, 7] {
            let read = |&(f, _, answer): &(u32, Row, [u32; 2])| f == features && answer[0] == 0;
            assert!(asked.iter().any(read), "{features}");
        }
    }
}

/// Registers shared by readers only, and the pair that goes around.
#[test]
fn shared_reads_and_the_wrap() {
    for seed in SEEDS {
        let pairs = pairs(seed);
        let mut shared = [0u64; 64];
        let mut same_w = 0;
        let mut both_lookups = 0;
        let mut around = [false; 2];
        for &(_, first, second, [number, value]) in &pairs {
            if number != 0 {
                continue;
            }
            let rows = [first, second].map(|word| decode(FULL, word).unwrap().row());
            let (first_reads, first_writes) = masks(first);
            let (second_reads, second_writes) = masks(second);
            if value == 0 {
                for (register, count) in shared.iter_mut().enumerate() {
                    *count += (first_reads & second_reads) >> register & 1;
                }
                same_w +=
                    usize::from(rows == [Row::Psel; 2] && first >> 16 & 3 == second >> 16 & 3);
                both_lookups += usize::from(
                    rows.iter()
                        .all(|row| matches!(row, Row::Luti4c | Row::Luti4s)),
                );
            } else if rows[0] == Row::Pext2 && first & 15 == 15 && rows[1] != Row::Pext2 {
                // Only P0, or only P15, is what they have in common.
                let other = second_reads | second_writes;
                around[0] |= other & (1 << 32) != 0 && other & (1 << 47) == 0;
                around[1] |= other & (1 << 47) != 0 && other & (1 << 32) == 0;
                assert_eq!(first_writes, 1 << 32 | 1 << 47);
            }
        }
        let vectors: u64 = shared[..32].iter().sum();
        let predicates: u64 = shared[32..].iter().sum();
        assert!(vectors >= 30 && predicates >= 60 && same_w >= 8 && both_lookups >= 20);
        assert_eq!(around, [true; 2]);
    }
}

#[test]
fn questions_survive_the_text() {
    for question in generate(3) {
        let line = question_line(&question);
        let bytes: [u8; QUESTION_BYTES] = line.as_bytes().try_into().unwrap();
        assert_eq!(read_question(&bytes), Ok(question));
    }
}
