//! Runs against the reference.

use super::{any_flags, same_run, same_step};
use reference::machine::Machine;
use reference::random::Random;
use reference::setting::{FULL, Setting};
use reference::stretches::{any_machine, any_setting, any_stretch};

#[test]
fn any_stretches() {
    let mut random = Random::new(41);
    let mut numbers = [0; 10];
    for _ in 0..400 {
        let setting = any_setting(&mut random);
        let length = random.below(40) as usize;
        let mut words = any_stretch(&mut random, setting, length);
        if !words.is_empty() && random.coin() {
            let place = random.below(words.len() as u32) as usize;
            words[place] ^= 1 << random.below(32);
        }
        let mut machine = any_machine(&mut random);
        machine.flags = any_flags(&mut random);
        numbers[same_run(setting, &words, &mut machine).number as usize] += 1;
    }
    for number in [0, 3, 4, 5] {
        assert!(numbers[number] > 0, "{numbers:?}");
    }
}

#[test]
fn stretches_around_the_longest() {
    let mut random = Random::new(42);
    for length in [0, 1, 255, 256, 257, 300] {
        let words = any_stretch(&mut random, FULL, length);
        let outcome = same_run(FULL, &words, &mut any_machine(&mut random));
        let expected = if length > 256 { (8, 0) } else { (0, length) };
        assert_eq!((outcome.number, outcome.done), expected);
    }
}

/// Every guard with every other.
#[test]
fn guards() {
    let wrong = Setting {
        vl: 128,
        features: 2,
    };
    for setting in [FULL, wrong] {
        for (z, p, zt) in [
            (8192, 512, 64),
            (8191, 512, 64),
            (8192 + 256, 512, 64),
            (8192 - 256, 512, 64),
            (8192, 511, 64),
            (8192, 512 + 32, 64),
            (8192, 512, 63),
            (8192, 512, 65),
            (0, 0, 0),
        ] {
            for length in [0, 1, 257] {
                let mut machine = Machine::zero();
                machine.z.resize(z, 1);
                machine.p.resize(p, 1);
                machine.zt0.resize(zt, 1);
                same_run(setting, &vec![0x2520_7010; length], &mut machine);
                same_step(setting, 0x2520_7010, &mut machine);
            }
        }
    }
}
