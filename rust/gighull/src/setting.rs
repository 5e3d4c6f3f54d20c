//! The setting: a vector length and a feature number.

use crate::{Refusal, ffi};

/// The bits of a feature number.
pub mod features {
    pub const SVE2: u32 = 1 << 0;
    pub const SVE2P1: u32 = 1 << 1;
    pub const SME: u32 = 1 << 2;
    pub const SME2: u32 = 1 << 3;
    pub const SME2P1: u32 = 1 << 4;
    pub const ALL: u32 = 31;
}

/// A vector length in bits and a feature number, any two numbers: the library
/// refuses those that are not allowed.
#[derive(Clone, Copy, Debug, PartialEq, Eq, Hash)]
pub struct Setting {
    pub vl: u32,
    pub features: u32,
}

impl Setting {
    /// VL 128 and all features, the lister's setting.
    pub const FULL: Setting = Setting {
        vl: 128,
        features: features::ALL,
    };

    /// ```
    /// use gighull::{Setting, features};
    /// let setting = Setting::new(256, features::SME | features::SME2);
    /// assert!(setting.is_allowed());
    /// ```
    pub const fn new(vl: u32, features: u32) -> Setting {
        Setting { vl, features }
    }

    /// Whether the library allows it: it does not refuse to read a word with
    /// [`Refusal::Setting`].
    ///
    /// ```
    /// use gighull::Setting;
    /// assert!(Setting::new(2048, 0).is_allowed());
    /// // SVE2p1 needs SVE2, and 65664 is 128 only in its low 16 bits.
    /// assert!(!Setting::new(128, 2).is_allowed());
    /// assert!(!Setting::new(65664, 31).is_allowed());
    /// ```
    pub fn is_allowed(self) -> bool {
        ffi::decode(self.vl, self.features, 0, &mut []) != Refusal::Setting.number()
    }
}

impl Default for Setting {
    fn default() -> Setting {
        Setting::FULL
    }
}
