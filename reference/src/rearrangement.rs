//! Which rearrangements of a stretch are permitted.

use crate::decode::decode;
use crate::refusal::Refusal;
use crate::run::LONGEST_STRETCH;
use crate::setting::Setting;
use crate::touch::{Touch, touch, touches_conflict};

#[derive(Clone, Copy, Debug, PartialEq, Eq)]
pub enum Permission {
    Permitted,
    /// `order` does not list each position of the stretch exactly once.
    NoRearrangement,
    /// The words at these positions conflict, and the second of them now
    /// comes before the first.
    Swapped(usize, usize),
    Refused(Refusal),
}

/// Whether the stretch may be run in this order: `order[i]` is the position
/// in `words` of the word that comes i-th.
///
/// Document 01 gives this question no refusals of its own; these are chosen
/// to agree with the run and the conflict question. A setting that is not
/// allowed is 1, as everywhere. Then more than 256 words are 8, since no run
/// takes them. Then a word that cannot be read is 3, wherever it stands, since
/// a conflict with it has no answer. All of that is asked before `order` is
/// looked at; an `order` of another length is no rearrangement.
pub fn permitted(setting: Setting, words: &[u32], order: &[usize]) -> Permission {
    if !setting.is_allowed() {
        return Permission::Refused(Refusal::Setting);
    }
    if words.len() > LONGEST_STRETCH {
        return Permission::Refused(Refusal::StretchLength);
    }
    let mut touches: Vec<Touch> = Vec::new();
    for &word in words {
        match decode(setting, word) {
            Ok(instruction) => touches.push(touch(instruction)),
            Err(refusal) => return Permission::Refused(refusal),
        }
    }
    if !lists_each_once(order, words.len()) {
        return Permission::NoRearrangement;
    }
    for (place, &later) in order.iter().enumerate() {
        for &earlier in &order[place + 1..] {
            if earlier < later && touches_conflict(&touches[earlier], &touches[later]) {
                return Permission::Swapped(earlier, later);
            }
        }
    }
    Permission::Permitted
}

fn lists_each_once(order: &[usize], count: usize) -> bool {
    (0..count).all(|position| order.iter().filter(|&&p| p == position).count() == 1)
        && order.len() == count
}
