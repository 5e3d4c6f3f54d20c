//! Runs: their guards, that they are repeated steps, and rearrangements.

use reference::machine::Machine;
use reference::random::Random;
use reference::rearrangement::{Permission, permitted};
use reference::refusal::Refusal;
use reference::run::{Outcome, run};
use reference::setting::{FULL, Setting};
use reference::step::step;
use reference::stretches::{
    any_machine, any_permitted_order, any_setting, any_stretch, rearranged,
};

const PEXT: u32 = 0x2520_7010;

fn done(count: usize) -> Outcome {
    Outcome {
        refusal: None,
        done: count,
    }
}

fn refused(refusal: Refusal, done: usize) -> Outcome {
    Outcome {
        refusal: Some(refusal),
        done,
    }
}

#[test]
fn guards_come_in_the_order_1_2_8() {
    let wrong = Setting {
        vl: 128,
        features: 32,
    };
    let right = Machine::zero();
    let mut short = Machine::zero();
    short.zt0.pop();
    let long = vec![PEXT; 257];
    for words in [&[][..], &long[..1], &long[..]] {
        for machine in [&right, &short] {
            let mut left = machine.clone();
            assert_eq!(run(wrong, words, &mut left), refused(Refusal::Setting, 0));
            assert_eq!(left, *machine);
        }
        let mut left = short.clone();
        assert_eq!(run(FULL, words, &mut left), refused(Refusal::FileLength, 0));
        assert_eq!(left, short);
    }
    let mut left = right.clone();
    let outcome = run(FULL, &long, &mut left);
    assert_eq!(outcome, refused(Refusal::StretchLength, 0));
    assert_eq!(outcome.number(), 8);
    assert_eq!(left, right);
    assert_eq!(run(FULL, &long[..256], &mut left), done(256));
    assert_eq!(left.pc, 4 * 256);
}

#[test]
fn nothing_is_defined_without_features() {
    let none = Setting {
        vl: 128,
        features: 0,
    };
    let mut machine = Machine::zero();
    assert_eq!(run(none, &[], &mut machine), done(0));
    assert_eq!(
        run(none, &[PEXT], &mut machine),
        refused(Refusal::Undefined, 0)
    );
    assert_eq!(machine, Machine::zero());
}

/// Stretches with a word spoilt somewhere, or with V closed, so that some
/// words are refused with 4 and some are not.
#[test]
fn a_run_is_repeated_steps() {
    let mut random = Random::new(21);
    let mut numbers = [0; 7];
    for _ in 0..300 {
        let setting = any_setting(&mut random);
        let length = random.below(20) as usize;
        let mut words = any_stretch(&mut random, setting, length);
        if !words.is_empty() && random.coin() {
            let place = random.below(words.len() as u32) as usize;
            words[place] ^= 1 << random.below(32);
        }
        let mut ran = any_machine(&mut random);
        ran.flags.v = random.below(4) > 0;
        let mut stepped = ran.clone();
        let mut expected = done(words.len());
        for (place, &word) in words.iter().enumerate() {
            if let Err(refusal) = step(setting, word, &mut stepped) {
                expected = refused(refusal, place);
                break;
            }
        }
        assert_eq!(run(setting, &words, &mut ran), expected);
        assert_eq!(ran, stepped);
        numbers[expected.number() as usize] += 1;
    }
    assert!(numbers[0] > 0 && numbers[3] > 0 && numbers[4] > 0);
}

#[test]
fn a_permitted_rearrangement_ends_in_the_same_machine() {
    let mut random = Random::new(22);
    let mut moved = 0;
    for _ in 0..300 {
        let setting = any_setting(&mut random);
        let length = random.below(32) as usize;
        let words = any_stretch(&mut random, setting, length);
        let order = any_permitted_order(&mut random, setting, &words);
        assert_eq!(permitted(setting, &words, &order), Permission::Permitted);
        let rearranged = rearranged(&words, &order);
        moved += usize::from(rearranged != words);
        let before = any_machine(&mut random);
        let (mut first, mut second) = (before.clone(), before);
        assert_eq!(run(setting, &words, &mut first), done(words.len()));
        assert_eq!(run(setting, &rearranged, &mut second), done(words.len()));
        assert_eq!(first, second);
    }
    assert!(moved > 200, "{moved}");
}

/// Orders that are not permitted often end in another machine, so the test
/// above is not true of everything.
#[test]
fn other_rearrangements_end_elsewhere() {
    let mut random = Random::new(23);
    let mut elsewhere = 0;
    for _ in 0..100 {
        let words = any_stretch(&mut random, FULL, 16);
        let reversed: Vec<usize> = (0..words.len()).rev().collect();
        let Permission::Swapped(earlier, later) = permitted(FULL, &words, &reversed) else {
            continue;
        };
        assert!(earlier < later);
        let backwards: Vec<u32> = words.iter().rev().copied().collect();
        let before = any_machine(&mut random);
        let (mut first, mut second) = (before.clone(), before);
        run(FULL, &words, &mut first);
        run(FULL, &backwards, &mut second);
        elsewhere += usize::from(first != second);
    }
    assert!(elsewhere > 50, "{elsewhere}");
}

#[test]
fn orders_are_looked_at_last() {
    let wrong = Setting {
        vl: 0,
        features: 31,
    };
    let refused = Permission::Refused;
    let long = vec![0; 257];
    assert_eq!(permitted(wrong, &long, &[]), refused(Refusal::Setting));
    assert_eq!(permitted(FULL, &long, &[]), refused(Refusal::StretchLength));
    assert_eq!(
        permitted(FULL, &[PEXT, 0], &[0, 0]),
        refused(Refusal::Undefined)
    );
    assert_eq!(permitted(FULL, &[], &[]), Permission::Permitted);
    for order in [&[][..], &[0], &[0, 0], &[0, 2], &[0, 1, 1], &[0, 1, 2]] {
        let found = permitted(FULL, &[PEXT, PEXT + 1], order);
        assert_eq!(found, Permission::NoRearrangement, "{order:?}");
    }
    // P0 and P1 from one counter: free. Copies are not.
    let free = permitted(FULL, &[PEXT, PEXT + 1], &[1, 0]);
    assert_eq!(free, Permission::Permitted);
    let copies = permitted(FULL, &[PEXT, PEXT], &[1, 0]);
    assert_eq!(copies, Permission::Swapped(0, 1));
    // Not only neighbours: the third may not come before the first.
    let words = [PEXT, PEXT + 1, PEXT];
    assert_eq!(
        permitted(FULL, &words, &[2, 1, 0]),
        Permission::Swapped(0, 2)
    );
    assert_eq!(permitted(FULL, &words, &[1, 0, 2]), Permission::Permitted);
}
