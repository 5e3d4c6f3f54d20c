//! A small seeded generator (splitmix64), the same on every machine.

const STEP: u64 = 0x9e37_79b9_7f4a_7c15;
const FIRST_FACTOR: u64 = 0xbf58_476d_1ce4_e5b9;
const SECOND_FACTOR: u64 = 0x94d0_49bb_1331_11eb;

pub struct Random {
    state: u64,
}

impl Random {
    pub fn new(seed: u64) -> Random {
        Random { state: seed }
    }

    pub fn next_u64(&mut self) -> u64 {
        self.state = self.state.wrapping_add(STEP);
        let mut mixed = self.state;
        mixed = (mixed ^ (mixed >> 30)).wrapping_mul(FIRST_FACTOR);
        mixed = (mixed ^ (mixed >> 27)).wrapping_mul(SECOND_FACTOR);
        mixed ^ (mixed >> 31)
    }

    /// The seed whose output number `place`, counted from 0, is `output`.
    ///
    /// Every part of the mixing can be undone, so there is just one. It lets
    /// a machine made from a seed hold a chosen number in a chosen place.
    pub fn seed_for(output: u64, place: u64) -> u64 {
        let mut mixed = undo_shift(output, 31);
        mixed = undo_shift(mixed.wrapping_mul(inverse(SECOND_FACTOR)), 27);
        mixed = undo_shift(mixed.wrapping_mul(inverse(FIRST_FACTOR)), 30);
        mixed.wrapping_sub(STEP.wrapping_mul(place.wrapping_add(1)))
    }

    pub fn next_u32(&mut self) -> u32 {
        // The upper half always fits.
        (self.next_u64() >> 32) as u32
    }

    /// A number below `bound`, which must not be 0. The slight unevenness of
    /// the scaling does not matter here.
    pub fn below(&mut self, bound: u32) -> u32 {
        ((u64::from(self.next_u32()) * u64::from(bound)) >> 32) as u32
    }

    pub fn pick<T: Copy>(&mut self, from: &[T]) -> T {
        // Only ever used on short lists.
        from[self.below(from.len() as u32) as usize]
    }

    pub fn coin(&mut self) -> bool {
        self.below(2) == 1
    }
}

/// The x with x ^ (x >> shift) = `mixed`: each round makes `shift` more of the
/// upper bits right.
fn undo_shift(mixed: u64, shift: u32) -> u64 {
    let mut x = mixed;
    for _ in 0..64 / shift {
        x = mixed ^ (x >> shift);
    }
    x
}

/// The number whose product with an odd `factor` is 1. An odd number is right
/// in its low three bits as its own inverse, and each round doubles that.
fn inverse(factor: u64) -> u64 {
    let mut guess = factor;
    for _ in 0..5 {
        guess = guess.wrapping_mul(2u64.wrapping_sub(factor.wrapping_mul(guess)));
    }
    guess
}

#[cfg(test)]
mod tests {
    use super::*;

    /// First outputs for seed 1234567, as published with the algorithm.
    #[test]
    fn known_outputs() {
        let mut random = Random::new(1_234_567);
        assert_eq!(random.next_u64(), 6_457_827_717_110_365_317);
        assert_eq!(random.next_u64(), 3_203_168_211_198_807_973);
    }

    #[test]
    fn a_seed_for_every_output() {
        let outputs = [0, 1, u64::MAX, 0x0123_4567_89ab_cdef, 1 << 63];
        for output in outputs {
            for place in [0, 1, 5, 1023] {
                let mut random = Random::new(Random::seed_for(output, place));
                for _ in 0..place {
                    random.next_u64();
                }
                assert_eq!(random.next_u64(), output);
            }
        }
    }

    #[test]
    fn below_stays_below_and_reaches_both_ends() {
        let mut random = Random::new(3);
        let mut seen = [false; 6];
        for _ in 0..1000 {
            seen[random.below(6) as usize] = true;
        }
        assert_eq!(seen, [true; 6]);
    }
}
