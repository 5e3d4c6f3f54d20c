//! Stretches with an order to run them in.

use reference::random::Random;
use reference::stretches::any_permitted_order;

use super::one_in;
use super::settings::setting;
use super::words::{defined_words, word};
use crate::case::Case;

/// Orders that are permitted, that nearly are, and that are none.
pub fn permitted(random: &mut Random) -> Case {
    let setting = setting(random);
    let length = match random.below(64) {
        0 => random.pick(&[255, 256, 257, 258]),
        1 | 2 => random.below(120),
        _ => random.below(20),
    };
    let mut words = defined_words(random, setting, length as usize);
    let readable = words
        .iter()
        .all(|&word| reference::decode::decode(setting, word).is_ok());
    let mut order: Vec<u32> = (0..length).collect();
    match random.below(8) {
        0 => {}
        1 => shuffle(random, &mut order),
        // Long ones take the reference long.
        _ if readable && length <= 64 => {
            order = any_permitted_order(random, setting, &words)
                .into_iter()
                .map(|position| position as u32)
                .collect();
        }
        _ => {}
    }
    if length >= 2 && random.below(3) == 0 {
        let place = random.below(length - 1) as usize;
        order.swap(place, place + 1);
    }
    if one_in(random, 8) && length > 0 {
        let place = random.below(length) as usize;
        match random.below(4) {
            0 => order[place] = random.below(length + 1),
            1 => order[place] = random.pick(&[length, 255, 256, 257, 65536, 1 << 31, u32::MAX]),
            2 => order[place] = order[place].wrapping_add(random.pick(&[256, 1 << 16, 1 << 31])),
            _ => {
                order.remove(place);
            }
        }
    }
    if one_in(random, 16) {
        order.push(random.below(length + 1));
    }
    if length > 0 && one_in(random, 8) {
        let place = random.below(length) as usize;
        words[place] = word(random);
    }
    Case::Permitted {
        setting,
        words,
        order,
    }
}

fn shuffle(random: &mut Random, order: &mut [u32]) {
    for end in (1..order.len()).rev() {
        let other = random.below(end as u32 + 1) as usize;
        order.swap(end, other);
    }
}
