//! A question whether an order of a stretch is a permitted rearrangement, and
//! the answer of this program.

use crate::rearrangement::{Permission, permitted};
use crate::refusal::DONE;
use crate::setting::Setting;

#[derive(Clone, Debug, PartialEq, Eq, Hash)]
pub struct PermissionQuestion {
    pub setting: Setting,
    /// The stretch.
    pub words: Vec<u32>,
    /// The positions, counted from 0, of the words in their new order; any
    /// number may stand here.
    pub order: Vec<u32>,
}

/// Number, and 1 for permitted or 0 for not: 0 where refused, and where the
/// order is no rearrangement at all.
pub type PermissionAnswer = [u32; 2];

impl PermissionQuestion {
    pub fn answer(&self) -> PermissionAnswer {
        let order: Vec<usize> = self.order.iter().map(|&entry| entry as usize).collect();
        match permitted(self.setting, &self.words, &order) {
            Permission::Permitted => [DONE, 1],
            Permission::NoRearrangement | Permission::Swapped(..) => [DONE, 0],
            Permission::Refused(refusal) => [refusal.number(), 0],
        }
    }
}
