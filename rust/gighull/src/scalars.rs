//! W12 to W15 by number, and the scalars at the start.

use crate::Scalars;

impl Scalars {
    /// All zero, and all access open.
    pub const OPEN: Scalars = Scalars {
        w12: 0,
        w13: 0,
        w14: 0,
        w15: 0,
        pc: 0,
        v: true,
        s: true,
        t: true,
    };

    /// W12 to W15, by their own numbers.
    ///
    /// ```
    /// use gighull::Scalars;
    /// let mut scalars = Scalars::OPEN;
    /// *scalars.w_mut(13).unwrap() = 7;
    /// assert_eq!((scalars.w13, scalars.w(13), scalars.w(16)), (7, Some(7), None));
    /// ```
    pub const fn w(&self, register: u32) -> Option<u32> {
        match register {
            12 => Some(self.w12),
            13 => Some(self.w13),
            14 => Some(self.w14),
            15 => Some(self.w15),
            _ => None,
        }
    }

    pub const fn w_mut(&mut self, register: u32) -> Option<&mut u32> {
        match register {
            12 => Some(&mut self.w12),
            13 => Some(&mut self.w13),
            14 => Some(&mut self.w14),
            15 => Some(&mut self.w15),
            _ => None,
        }
    }
}

impl Default for Scalars {
    fn default() -> Scalars {
        Scalars::OPEN
    }
}
