//! Settings, and vector lengths that are none.

use reference::random::Random;
use reference::setting::{Setting, VECTOR_LENGTHS};
use reference::values::{FEATURES_ABOVE, LENGTHS_NOT_ALLOWED};

pub const ALLOWED_FEATURES: [u32; 12] = [0, 1, 3, 4, 5, 7, 12, 13, 15, 28, 29, 31];

/// Allowed seven times in eight.
pub fn setting(random: &mut Random) -> Setting {
    let mut setting = Setting {
        vl: random.pick(&VECTOR_LENGTHS),
        features: if random.coin() {
            31
        } else {
            random.pick(&ALLOWED_FEATURES)
        },
    };
    let damage = random.below(24);
    if damage == 0 || damage == 1 {
        setting.vl = length_of_no_vector(random, setting.vl);
    }
    if damage == 1 || damage == 2 {
        setting.features = match random.below(3) {
            0 => random.pick(&FEATURES_ABOVE),
            1 => random.below(64),
            _ => setting.features ^ 1 << random.below(32),
        };
    }
    setting
}

/// Mostly no allowed vector length.
pub fn length_of_no_vector(random: &mut Random, vl: u32) -> u32 {
    match random.below(3) {
        0 => random.pick(&LENGTHS_NOT_ALLOWED),
        1 => vl ^ 1 << random.below(32),
        _ => random.below(4096),
    }
}
