//! The setting: a vector length and a feature number.
//!
//! Both are kept as the full `u32` they were given as. Nothing is narrowed
//! before it is tested: 65664 is not 128, and 287 is not 31.

pub const SVE2: u32 = 1 << 0;
pub const SVE2P1: u32 = 1 << 1;
pub const SME: u32 = 1 << 2;
pub const SME2: u32 = 1 << 3;
pub const SME2P1: u32 = 1 << 4;

pub const ALL_FEATURES: u32 = 31;

/// SVE2p1, with the SVE2 it needs and nothing else.
pub const WITHOUT_SME: u32 = SVE2 | SVE2P1;

pub const VECTOR_LENGTHS: [u32; 5] = [128, 256, 512, 1024, 2048];

#[derive(Clone, Copy, Debug, PartialEq, Eq, Hash)]
pub struct Setting {
    pub vl: u32,
    pub features: u32,
}

/// The lister's setting, and that of the points on the board.
pub const FULL: Setting = Setting {
    vl: 128,
    features: ALL_FEATURES,
};

impl Setting {
    pub fn is_allowed(self) -> bool {
        vl_is_allowed(self.vl) && features_are_allowed(self.features)
    }

    pub fn has(self, feature: u32) -> bool {
        self.features & feature != 0
    }
}

pub fn vl_is_allowed(vl: u32) -> bool {
    VECTOR_LENGTHS.contains(&vl)
}

pub fn features_are_allowed(features: u32) -> bool {
    if features > ALL_FEATURES {
        return false;
    }
    let has = |feature: u32| features & feature != 0;
    if has(SVE2P1) && !has(SVE2) {
        return false;
    }
    if has(SME2) && !has(SME) {
        return false;
    }
    if has(SME2P1) && !has(SME2) {
        return false;
    }
    true
}

#[cfg(test)]
mod tests {
    use super::*;

    #[test]
    fn twelve_feature_numbers_are_allowed() {
        let allowed: Vec<u32> = (0..70_000).filter(|&n| features_are_allowed(n)).collect();
        assert_eq!(allowed, [0, 1, 3, 4, 5, 7, 12, 13, 15, 28, 29, 31]);
        for n in [1 << 31, u32::MAX, 1 << 16, (1 << 31) | 31] {
            assert!(!features_are_allowed(n));
        }
    }

    #[test]
    fn five_vector_lengths_are_allowed() {
        let allowed: Vec<u32> = (0..200_000).filter(|&n| vl_is_allowed(n)).collect();
        assert_eq!(allowed, [128, 256, 512, 1024, 2048]);
        for n in [1 << 31, u32::MAX, (1 << 31) | 128] {
            assert!(!vl_is_allowed(n));
        }
    }
}
