//! The vector length and the feature number.

pub const SVE2: u32 = 1 << 0;
pub const SVE2P1: u32 = 1 << 1;
pub const SME: u32 = 1 << 2;
pub const SME2: u32 = 1 << 3;
pub const SME2P1: u32 = 1 << 4;

#[derive(Clone, Copy, Debug, PartialEq, Eq)]
pub struct Setting {
    /// in bits
    pub vl: u32,
    pub features: u32,
}

impl Setting {
    #[inline]
    pub fn is_allowed(self) -> bool {
        matches!(self.vl, 128 | 256 | 512 | 1024 | 2048)
            && matches!(
                self.features,
                0 | 1 | 3 | 4 | 5 | 7 | 12 | 13 | 15 | 28 | 29 | 31
            )
    }
}
