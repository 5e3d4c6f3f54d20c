//! How two sides are timed: in rounds, each side's part of one long against the
//! clock and short against an interruption.

use std::hint::black_box;
use std::time::Instant;

use crate::cases::Case;

/// About what one side takes in a round: short against the time that another
/// process is given, so that few rounds are interrupted.
const NANOSECONDS: f64 = 200_000.0;

/// How many passes a side does in a round, where one takes that many
/// nanoseconds.
pub fn passes_in_a_round(each: f64) -> u32 {
    (NANOSECONDS / each).clamp(1.0, 1e6) as u32
}

/// What a stretch or its steps answered: the number, and the words done.
pub type Outcome = (u32, usize);

/// Nanoseconds a word, of `count` passes over a case's words. Adds to `wrong`
/// how many of them answered otherwise.
pub fn timed(
    case: &Case,
    vl: u32,
    count: u32,
    wrong: &mut u32,
    mut pass: impl FnMut(u32, &[u32]) -> Outcome,
) -> f64 {
    let (vl, words) = black_box((vl, &case.words[..]));
    let expected = (case.answer, if case.answer == 0 { words.len() } else { 0 });
    let begin = Instant::now();
    for _ in 0..count {
        *wrong += u32::from(pass(vl, words) != expected);
    }
    begin.elapsed().as_secs_f64() * 1e9 / f64::from(count) / words.len() as f64
}

/// The last word's number, and how many words were done.
pub fn steps(words: &[u32], mut step: impl FnMut(u32) -> u32) -> Outcome {
    let (mut number, mut done) = (0, 0);
    for &word in words {
        number = step(word);
        done += usize::from(number == 0);
    }
    (number, done)
}

/// Rounds of two sides.
pub struct Rounds {
    /// In each round the first side's time divided by the second's.
    pub ratios: Vec<f64>,
    /// Each side's least time.
    pub least: [f64; 2],
}

impl Rounds {
    pub const NONE: Rounds = Rounds {
        ratios: Vec::new(),
        least: [f64::MAX; 2],
    };

    /// Times both sides, 0 and 1, in so many rounds more; which goes first
    /// changes from round to round. `time` is given the round and the side.
    pub fn more(&mut self, count: usize, mut time: impl FnMut(usize, usize) -> f64) {
        for _ in 0..count {
            let round = self.ratios.len();
            let mut times = [0.0; 2];
            for side in [round % 2, 1 - round % 2] {
                times[side] = time(round, side);
                self.least[side] = self.least[side].min(times[side]);
            }
            self.ratios.push(times[0] / times[1]);
        }
    }
}

/// Does something with the stack in one of 16 places of a page, by turns. A load
/// waits for a store whose address has the same low bits, so times depend on how
/// the stack lies to other memory, and that changes from process to process.
pub fn by_place<T>(turn: usize, act: impl FnOnce() -> T) -> T {
    // An odd multiple of 16, so that the places also differ in how they lie to
    // the 256 bytes of a register.
    const STEP: usize = 256 + 16;
    const DEEPER: [fn(&mut dyn FnMut()); 16] = [
        deeper::<STEP>,
        deeper::<{ 2 * STEP }>,
        deeper::<{ 3 * STEP }>,
        deeper::<{ 4 * STEP }>,
        deeper::<{ 5 * STEP }>,
        deeper::<{ 6 * STEP }>,
        deeper::<{ 7 * STEP }>,
        deeper::<{ 8 * STEP }>,
        deeper::<{ 9 * STEP }>,
        deeper::<{ 10 * STEP }>,
        deeper::<{ 11 * STEP }>,
        deeper::<{ 12 * STEP }>,
        deeper::<{ 13 * STEP }>,
        deeper::<{ 14 * STEP }>,
        deeper::<{ 15 * STEP }>,
        deeper::<{ 16 * STEP }>,
    ];
    let (mut act, mut done) = (Some(act), None);
    DEEPER[turn % DEEPER.len()](&mut || done = act.take().map(|act| act()));
    done.expect("it is done once")
}

#[inline(never)]
fn deeper<const BYTES: usize>(act: &mut dyn FnMut()) {
    let mut room = [0u8; BYTES];
    black_box(&mut room);
    act();
    black_box(&room);
}

#[cfg(test)]
mod tests {
    use super::*;
    use std::collections::BTreeSet;

    #[test]
    fn places_are_all_over_a_page() {
        let place = |turn| {
            by_place(turn, || {
                let local = 0u8;
                std::ptr::from_ref(black_box(&local)) as usize
            })
        };
        let pieces = |bytes: usize, of: usize| {
            let pieces = (0..16).map(|turn| place(turn) % bytes / of);
            pieces.collect::<BTreeSet<usize>>().len()
        };
        assert_eq!(pieces(256, 16), 16);
        assert!(pieces(4096, 256) >= 14);
        assert_eq!(place(16), place(0));
    }

    #[test]
    fn sides_take_turns() {
        let (mut order, mut rounds) = (Vec::new(), Rounds::NONE);
        for count in [1, 2] {
            rounds.more(count, |round, side| {
                order.push((round, side));
                [6.0, 3.0][side] + order.len() as f64
            });
        }
        assert_eq!(order, [(0, 0), (0, 1), (1, 1), (1, 0), (2, 0), (2, 1)]);
        assert_eq!(rounds.ratios, [7.0 / 5.0, 10.0 / 6.0, 11.0 / 9.0]);
        assert_eq!(rounds.least, [7.0, 5.0]);
    }

    #[test]
    fn other_answers_are_counted() {
        let case = &crate::cases::cases(crate::cases::Words::All)[0];
        let (mut wrong, mut passes) = (0, 0);
        let time = timed(case, 128, 5, &mut wrong, |vl, words| {
            passes += 1;
            assert_eq!(vl, 128);
            (0, words.len() - passes / 4)
        });
        assert_eq!((passes, wrong), (5, 2));
        assert!(time >= 0.0);
    }

    #[test]
    fn a_part_is_about_as_long_as_wanted() {
        assert_eq!(passes_in_a_round(NANOSECONDS / 10.0), 10);
        assert_eq!(passes_in_a_round(NANOSECONDS * 10.0), 1);
        assert_eq!(passes_in_a_round(0.0), 1_000_000);
    }
}
