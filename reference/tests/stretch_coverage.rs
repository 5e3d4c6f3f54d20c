//! Whether the questions about runs and about permission ask what they are
//! meant to ask, and demand 3 for all their rearrangements.

mod masks;

use std::collections::{HashMap, HashSet};

use masks::conflict;
use reference::cases::{self, Case};
use reference::decode::decode;
use reference::instruction::{Form, Instruction};
use reference::layout::Row;
use reference::permission_question::{PermissionAnswer, PermissionQuestion};
use reference::permission_questions;
use reference::random::Random;
use reference::run_question::{RunAnswer, RunQuestion};
use reference::run_questions;
use reference::setting::{FULL, Setting, VECTOR_LENGTHS};
use reference::step::step;
use reference::text::{
    permission_question_line, read_permission_question, read_run_question, run_question_line,
};
use reference::values::WRONG_LENGTHS;

const SEEDS: [u64; 3] = [1, 77, u64::MAX];

fn runs(seed: u64) -> Vec<(RunQuestion, RunAnswer)> {
    run_questions::generate(seed)
        .into_iter()
        .map(|question| {
            let answer = question.answer();
            (question, answer)
        })
        .collect()
}

fn permissions(seed: u64) -> Vec<(PermissionQuestion, PermissionAnswer)> {
    permission_questions::generate(seed)
        .into_iter()
        .map(|question| {
            let answer = question.answer();
            (question, answer)
        })
        .collect()
}

fn run_of(case: &Case, words: Vec<u32>) -> RunQuestion {
    RunQuestion {
        start: case.start,
        words,
    }
}

fn permission_of(case: &Case, order: &[usize]) -> PermissionQuestion {
    PermissionQuestion {
        setting: case.start.setting,
        words: case.words.clone(),
        order: order.iter().map(|&position| position as u32).collect(),
    }
}

/// Document 01's words, by the masks: each position once, and of any two that
/// conflict the earlier still first.
fn is_permitted(words: &[u32], order: &[u32]) -> bool {
    let mut sorted = order.to_vec();
    sorted.sort_unstable();
    if sorted != (0..words.len() as u32).collect::<Vec<u32>>() {
        return false;
    }
    let mut place = vec![0; words.len()];
    for (now, &position) in order.iter().enumerate() {
        place[position as usize] = now;
    }
    (0..words.len()).all(|later| {
        (0..later)
            .all(|earlier| !conflict(words[earlier], words[later]) || place[earlier] < place[later])
    })
}

/// Demand 3, for every rearrangement that is asked about: a permitted one of
/// an accepted stretch is answered just as the stretch is. Both are among the
/// questions, on one machine, and so is the permission.
#[test]
fn permitted_rearrangements_are_answered_alike() {
    for seed in SEEDS {
        let answers: HashMap<RunQuestion, RunAnswer> = runs(seed).into_iter().collect();
        let permissions: HashMap<PermissionQuestion, PermissionAnswer> =
            permissions(seed).into_iter().collect();
        let (mut permitted, mut moved) = (0, 0);
        let (mut forbidden, mut elsewhere) = (0, 0);
        for case in cases::generate(&mut Random::new(seed)) {
            let first = answers[&run_of(&case, case.words.clone())];
            assert_eq!(first[..2], [0, case.words.len() as u32]);
            for order in &case.permitted {
                let words = case.rearranged(order);
                moved += usize::from(words != case.words);
                permitted += 1;
                assert_eq!(answers[&run_of(&case, words)], first);
                assert_eq!(permissions[&permission_of(&case, order)], [0, 1]);
            }
            for order in &case.forbidden {
                let second = answers[&run_of(&case, case.rearranged(order))];
                // Accepted all the same; only what is left may be another.
                assert_eq!(second[..2], first[..2]);
                forbidden += 1;
                elsewhere += usize::from(second != first);
                assert_eq!(permissions[&permission_of(&case, order)], [0, 0]);
            }
        }
        assert!(permitted > 300 && moved > 250, "{permitted} {moved}");
        assert!(
            forbidden > 200 && elsewhere > 100,
            "{forbidden} {elsewhere}"
        );
    }
}

#[test]
fn permissions_agree_with_the_masks() {
    for seed in SEEDS {
        let mut answers: HashMap<PermissionAnswer, usize> = HashMap::new();
        for (question, answer) in permissions(seed) {
            *answers.entry(answer).or_default() += 1;
            let readable = |&word: &u32| decode(question.setting, word).is_ok();
            let expected = if !question.setting.is_allowed() {
                [1, 0]
            } else if question.words.len() > 256 {
                [8, 0]
            } else if !question.words.iter().all(readable) {
                [3, 0]
            } else {
                [0, is_permitted(&question.words, &question.order).into()]
            };
            assert_eq!(answer, expected);
        }
        for (answer, least) in [
            ([0, 0], 350),
            ([0, 1], 500),
            ([1, 0], 100),
            ([3, 0], 60),
            ([8, 0], 6),
        ] {
            let count = answers[&answer];
            assert!(count >= least, "{answer:?}: {count}");
        }
        assert_eq!(answers.len(), 5);
    }
}

/// Each way to be no rearrangement, the rest being in order.
#[test]
fn orders_of_every_shape() {
    for seed in SEEDS {
        let mut shapes = HashSet::new();
        let mut lengths = HashSet::new();
        for (question, answer) in permissions(seed) {
            if answer[0] != 0 {
                continue;
            }
            let (words, order) = (&question.words, &question.order);
            lengths.insert((words.len(), answer[1]));
            let high = order.iter().any(|&p| p as usize >= words.len());
            let distinct: HashSet<u32> = order.iter().copied().collect();
            let twice = distinct.len() < order.len();
            shapes.insert((order.len().cmp(&words.len()), high, twice));
            if high || twice || order.len() != words.len() {
                assert_eq!(answer[1], 0);
            }
        }
        use std::cmp::Ordering::{Equal, Greater, Less};
        let expected = [
            (Equal, false, false),
            (Equal, true, false),
            (Equal, false, true),
            (Less, false, false),
            (Greater, true, false),
            (Greater, false, true),
        ];
        for shape in expected {
            assert!(shapes.contains(&shape), "{shape:?}");
        }
        for length in [(0, 1), (0, 0), (255, 1), (255, 0), (256, 1), (256, 0)] {
            assert!(lengths.contains(&length), "{length:?}");
        }
    }
}

/// Each number at the first word, within and at the last, and every length.
#[test]
fn refusals_everywhere() {
    for seed in SEEDS {
        let runs = runs(seed);
        let any = |with: &dyn Fn(&RunQuestion, RunAnswer) -> bool| {
            runs.iter()
                .any(|(question, answer)| with(question, *answer))
        };
        for number in 3..=6 {
            for row in Row::ALL {
                let refused = |question: &RunQuestion, answer: RunAnswer| {
                    let word = question.words.get(answer[1] as usize);
                    answer[0] == number
                        && word.is_some_and(|&word| decode(FULL, word).map(|i| i.row()) == Ok(row))
                };
                let possible = match number {
                    4 => !matches!(row, Row::Luti4c | Row::Luti4s),
                    5 => !matches!(row, Row::Psel | Row::Narrow),
                    6 => matches!(row, Row::Luti4c | Row::Luti4s),
                    _ => true,
                };
                // Where the narrowing family has no feature, no other word has one.
                let after_others = possible && (number, row) != (3, Row::Narrow);
                let last = |question: &RunQuestion| question.words.len() as u32 - 1;
                assert_eq!(any(&|q, a| refused(q, a) && a[1] == 0), possible);
                let within = |q: &RunQuestion, a: RunAnswer| a[1] > 0 && a[1] < last(q);
                let at_the_end = |q: &RunQuestion, a: RunAnswer| a[1] > 0 && a[1] == last(q);
                assert_eq!(any(&|q, a| refused(q, a) && within(q, a)), after_others);
                assert_eq!(any(&|q, a| refused(q, a) && at_the_end(q, a)), after_others);
            }
        }
        for vl in VECTOR_LENGTHS {
            let undefined = |q: &RunQuestion, a: RunAnswer, done: u32| {
                q.setting_is(vl, 31) && a[0] == 3 && a[1] == done
            };
            assert!(any(&|q, a| undefined(q, a, 0)));
            assert!(any(
                &|q, a| !q.words.is_empty() && undefined(q, a, q.words.len() as u32 - 1)
            ));
            assert!(any(&|q, a| q.setting_is(vl, 31) && a[..2] == [0, 0]));
            assert!(any(&|q, a| q.setting_is(vl, 31) && a[..2] == [0, 1]));
        }
        for (length, number, done) in [
            (255, 0, 255),
            (256, 0, 256),
            (256, 3, 255),
            (256, 3, 0),
            (257, 1, 0),
            (257, 2, 0),
            (257, 8, 0),
            (512, 8, 0),
        ] {
            assert!(any(
                &|q, a| q.words.len() == length && a[..2] == [number, done]
            ));
        }
        // Nothing is defined without features; no words are still done.
        assert!(any(&|q, a| q.start.setting.features == 0
            && q.words.is_empty()
            && a[0] == 0));
        assert!(any(&|q, a| q.start.setting.features == 0
            && !q.words.is_empty()
            && a[..2] == [3, 0]));
        for (z, p, zt) in WRONG_LENGTHS {
            for empty in [false, true] {
                assert!(any(&|q, a| {
                    let c = q.start.contents;
                    (c.z_length, c.p_length, c.zt_length) == (z, p, zt)
                        && q.words.is_empty() == empty
                        && a[..2] == [2, 0]
                }));
            }
        }
        let mut counts: HashMap<u32, usize> = HashMap::new();
        for (_, answer) in &runs {
            *counts.entry(answer[0]).or_default() += 1;
        }
        assert!(counts[&0] > 800, "{counts:?}");
        assert!((1..=6).all(|number| counts[&number] >= 12), "{counts:?}");
        assert!(counts[&8] >= 5, "{counts:?}");
        // A run answers 0 to 6 or 8 and nothing else.
        assert_eq!(counts.len(), 8, "{counts:?}");
    }
}

trait Asked {
    fn setting_is(&self, vl: u32, features: u32) -> bool;
}

impl Asked for RunQuestion {
    fn setting_is(&self, vl: u32, features: u32) -> bool {
        self.start.setting == Setting { vl, features }
    }
}

/// PC passes 2^64 at the first word, within and at the last, and by multiples
/// of 4 or not.
#[test]
fn pc_wraps_on_the_way() {
    for seed in SEEDS {
        let mut places = HashSet::new();
        let mut left = HashSet::new();
        for (question, answer) in runs(seed) {
            let after = u64::from(answer[6]) << 32 | u64::from(answer[7]);
            let before = question.start.pc;
            let done = u64::from(answer[1]);
            assert_eq!(after, before.wrapping_add(4 * done));
            if after < before {
                // The word whose sum wraps.
                let word = (u64::MAX - before) / 4;
                places.insert((word == 0, word + 1 == done, answer[0] != 0));
                left.insert(after % 4);
            }
        }
        for place in [
            (true, false, false),
            (false, false, false),
            (false, true, false),
            (false, true, true), // refused just after
        ] {
            assert!(places.contains(&place), "{place:?}");
        }
        assert_eq!(left.len(), 4);
    }
}

/// Each of the sixteen narrowing words in an accepted stretch at every length,
/// moved by a permitted order; and T after B into one register.
#[test]
fn all_sixteen_words_in_runs() {
    for seed in SEEDS {
        let (mut ran, mut moved, mut interleaved) =
            (HashSet::new(), HashSet::new(), HashSet::new());
        for case in cases::generate(&mut Random::new(seed)) {
            let family = |word: u32| match decode(FULL, word) {
                Ok(Instruction::Narrow { bits, zd, .. }) => Some((bits, zd)),
                _ => None,
            };
            for (place, &word) in case.words.iter().enumerate() {
                let Some((bits, zd)) = family(word) else {
                    continue;
                };
                ran.insert((bits, case.start.setting.vl));
                if case.permitted.iter().any(|order| order[place] != place) {
                    moved.insert(bits);
                }
                for &later in &case.words[place + 1..] {
                    if family(later) == Some((bits + 1, zd)) && bits % 2 == 0 {
                        interleaved.insert(bits);
                    }
                }
            }
        }
        assert_eq!(ran.len(), 16 * 5);
        assert_eq!(moved.len(), 16);
        assert_eq!(interleaved.len(), 8);
    }
}

/// PSEL with SVE2p1 alone in accepted stretches, of every size at every length,
/// with a permitted order that moves it and with one that is not permitted; of
/// every size it copies here and clears there.
#[test]
fn psel_without_sme() {
    for seed in SEEDS {
        let (mut ran, mut moved, mut left) = (HashSet::new(), HashSet::new(), HashSet::new());
        for case in cases::generate(&mut Random::new(seed)) {
            let setting = case.start.setting;
            if setting.features != 3 {
                continue;
            }
            let mut machine = case.start.machine();
            for (place, &word) in case.words.iter().enumerate() {
                let before = machine.clone();
                assert_eq!(step(setting, word, &mut machine), Ok(()));
                let Ok(Instruction::Psel { size, pn, pd, .. }) = decode(setting, word) else {
                    continue;
                };
                ran.insert((size, setting.vl, case.forbidden.is_empty()));
                if case.permitted.iter().any(|order| order[place] != place) {
                    moved.insert(size);
                }
                let copied = before.predicate(pn, setting.vl);
                if copied.contains(&true) {
                    left.insert((size, machine.predicate(pd, setting.vl) == copied));
                }
            }
        }
        for size in [8, 16, 32, 64] {
            for vl in VECTOR_LENGTHS {
                assert!(ran.contains(&(size, vl, false)), "{size} {vl}");
            }
        }
        assert_eq!(moved.len(), 4);
        assert_eq!(left.len(), 4 * 2);
    }
}

/// PSEL as the word that refuses a run, and in runs that are done, under the
/// feature numbers that differ in SVE2p1 and SME.
#[test]
fn psel_under_every_feature_it_hangs_on() {
    for seed in SEEDS {
        let (mut refused, mut accepted) = (HashSet::new(), HashSet::new());
        for (question, answer) in runs(seed) {
            let features = question.start.setting.features;
            let is_psel =
                |&word: &u32| decode(FULL, word).map(|found| found.form()) == Ok(Form::Psel);
            let [number, done, ..] = answer;
            if number == 0 && question.words.iter().any(is_psel) {
                accepted.insert(features);
            } else if question.words.get(done as usize).is_some_and(is_psel) {
                refused.insert((features, number, done > 0));
            }
        }
        for features in [3, 4, 5, 7] {
            assert!(accepted.contains(&features), "{features}");
            assert!(refused.contains(&(features, 4, false)), "{features}");
        }
        assert!(!accepted.contains(&1));
        assert!(refused.contains(&(1, 3, false)) && refused.contains(&(1, 3, true)));
    }
}

/// Words that conflict by what both write, by what one reads, by either of
/// PEXT2's P15 and P0 alone, and as copies, among the forbidden orders.
#[test]
fn every_way_to_conflict() {
    for seed in SEEDS {
        let mut ways = HashSet::new();
        for case in cases::generate(&mut Random::new(seed)) {
            if case.forbidden.is_empty() || case.words.len() > 4 {
                continue;
            }
            for later in 0..case.words.len() {
                for earlier in 0..later {
                    let (a, b) = (case.words[earlier], case.words[later]);
                    let ((a_reads, a_writes), (b_reads, b_writes)) =
                        (masks::masks(a), masks::masks(b));
                    let both = a_writes & b_writes != 0;
                    let then_read = a_writes & b_reads != 0;
                    let then_written = a_reads & b_writes != 0;
                    if a == b {
                        ways.insert("copies");
                    } else if both && !then_read && !then_written {
                        ways.insert("both write");
                    } else if then_read && !both && !then_written {
                        ways.insert("written, then read");
                    } else if then_written && !both && !then_read {
                        ways.insert("read, then written");
                    }
                    let ends = 1 << 32 | 1 << 47;
                    if a_writes == ends && a_reads & (b_reads | b_writes) == 0 {
                        match (b_reads | b_writes) & ends {
                            end if end == 1 << 32 => ways.insert("P0 of the pair"),
                            end if end == 1 << 47 => ways.insert("P15 of the pair"),
                            _ => false,
                        };
                    }
                }
            }
        }
        assert_eq!(ways.len(), 6, "{ways:?}");
    }
}

#[test]
fn questions_survive_the_text_and_are_not_too_many() {
    for seed in SEEDS {
        let mut bytes = 0;
        for question in run_questions::generate(seed) {
            let line = run_question_line(&question);
            bytes += line.len();
            assert_eq!(read_run_question(line.as_bytes()), Ok(question));
        }
        for question in permission_questions::generate(seed) {
            let line = permission_question_line(&question);
            bytes += line.len();
            assert_eq!(read_permission_question(line.as_bytes()), Ok(question));
        }
        assert!(bytes < 900_000, "{bytes}");
    }
}
