//! Seeded machines, stretches of words and orders for them, to run.

use crate::decode::decode;
use crate::layout::{Row, has_features};
use crate::machine::Machine;
use crate::random::Random;
use crate::samples::matching_word;
use crate::setting::{ALL_FEATURES, FULL, Setting, VECTOR_LENGTHS, features_are_allowed};
use crate::start::Start;
use crate::touch::{Touch, touch, touches_conflict};

/// A machine with files of the right lengths and anything in them, all open.
pub fn any_machine(random: &mut Random) -> Machine {
    Start::any(random, FULL).machine()
}

/// An allowed setting, one time in two with all features.
pub fn any_setting(random: &mut Random) -> Setting {
    let vl = random.pick(&VECTOR_LENGTHS);
    if random.coin() {
        return Setting {
            vl,
            features: ALL_FEATURES,
        };
    }
    loop {
        let features = random.below(ALL_FEATURES + 1);
        if features_are_allowed(features) {
            return Setting { vl, features };
        }
    }
}

/// Words that are all defined under the setting; none where nothing is.
pub fn any_stretch(random: &mut Random, setting: Setting, length: usize) -> Vec<u32> {
    let rows: Vec<Row> = Row::ALL
        .into_iter()
        .filter(|&row| has_features(row, setting))
        .collect();
    stretch_of(random, &rows, length)
}

/// Words of these rows; none where there are no rows.
pub fn stretch_of(random: &mut Random, rows: &[Row], length: usize) -> Vec<u32> {
    if rows.is_empty() {
        return Vec::new();
    }
    let mut words = Vec::new();
    for _ in 0..length {
        // A copy of an earlier word now and then.
        if !words.is_empty() && random.below(8) == 0 {
            words.push(random.pick(&words));
        } else {
            let row = random.pick(rows);
            words.push(matching_word(random, row));
        }
    }
    words
}

/// The words in another order: `order[i]` is the position of the i-th.
pub fn rearranged(words: &[u32], order: &[usize]) -> Vec<u32> {
    order.iter().map(|&position| words[position]).collect()
}

/// The positions, the earlier first, of any two defined words that conflict.
pub fn conflicting_pairs(setting: Setting, words: &[u32]) -> Vec<(usize, usize)> {
    let touches: Vec<Touch> = words
        .iter()
        .map(|&word| touch(decode(setting, word).expect("the words are defined")))
        .collect();
    let mut pairs = Vec::new();
    for later in 0..words.len() {
        for earlier in 0..later {
            if touches_conflict(&touches[earlier], &touches[later]) {
                pairs.push((earlier, later));
            }
        }
    }
    pairs
}

/// Any order of defined words that keeps the order of conflicting ones: next
/// comes any word that no earlier one still waiting conflicts with.
pub fn any_permitted_order(random: &mut Random, setting: Setting, words: &[u32]) -> Vec<usize> {
    let pairs = conflicting_pairs(setting, words);
    // How many earlier ones each word waits for.
    let mut blockers = vec![0; words.len()];
    for &(_, later) in &pairs {
        blockers[later] += 1;
    }
    let mut waiting: Vec<usize> = (0..words.len()).collect();
    let mut order = Vec::new();
    while !waiting.is_empty() {
        let free: Vec<usize> = waiting
            .iter()
            .copied()
            .filter(|&position| blockers[position] == 0)
            .collect();
        // The first that waits is always free.
        let next = random.pick(&free);
        waiting.retain(|&position| position != next);
        order.push(next);
        for &(earlier, later) in &pairs {
            blockers[later] -= usize::from(earlier == next);
        }
    }
    order
}

/// An order of defined words in which some two that conflict have changed
/// places; none where no two conflict.
pub fn any_forbidden_order(
    random: &mut Random,
    setting: Setting,
    words: &[u32],
) -> Option<Vec<usize>> {
    let pairs = conflicting_pairs(setting, words);
    if pairs.is_empty() {
        return None;
    }
    let (earlier, later) = random.pick(&pairs);
    let mut order: Vec<usize> = (0..words.len()).collect();
    match random.below(3) {
        // Only the later word is moved, to just before the earlier one.
        0 => order[earlier..=later].rotate_right(1),
        // Neighbours in a permitted order, and nothing else.
        1 => {
            order = any_permitted_order(random, setting, words);
            let places: Vec<usize> = (1..order.len())
                .filter(|&place| pairs.contains(&(order[place - 1], order[place])))
                .collect();
            if places.is_empty() {
                exchange(&mut order, earlier, later);
            } else {
                let place = random.pick(&places);
                order.swap(place - 1, place);
            }
        }
        // Everything anywhere.
        _ => {
            shuffle(random, &mut order);
            let place = |position| order.iter().position(|&p| p == position);
            if place(earlier) < place(later) {
                exchange(&mut order, earlier, later);
            }
        }
    }
    Some(order)
}

pub fn shuffle(random: &mut Random, order: &mut [usize]) {
    for place in 1..order.len() {
        let other = random.below(place as u32 + 1) as usize;
        order.swap(place, other);
    }
}

/// Lets two positions change places.
fn exchange(order: &mut [usize], a: usize, b: usize) {
    for position in order {
        if *position == a {
            *position = b;
        } else if *position == b {
            *position = a;
        }
    }
}
