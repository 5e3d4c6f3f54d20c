//! The narrowing of one element against request 1's words, tried on every
//! element of 16 bits and on many of the wider ones.

use reference::narrow::{Kind, narrow_element};
use reference::random::Random;

/// What the request says of one element, without dividing: the quotient is
/// searched for by its bounds, and what is cut is told by comparing.
fn check(bits: u32, size: u32, shift: u32, x: u64) {
    let result = narrow_element(Kind::from_number(bits), size, shift, x.into());
    let context = format!("{bits:04b} {size} {shift} {x:x}: {result:x}");
    assert!(result < 1 << size, "{context}");
    let (op, u, r) = (bits & 8 != 0, bits & 4 != 0, bits & 2 != 0);
    let mut sum = i128::from(x);
    if !u && x >> (2 * size - 1) == 1 {
        sum -= 1 << (2 * size);
    }
    if r {
        sum += 1 << (shift - 1);
    }
    let (least, greatest) = match (op, u) {
        (true, false) => (-(1 << (size - 1)), (1 << (size - 1)) - 1),
        _ => (0, (1i128 << size) - 1),
    };
    let mut number = result as i128;
    if number > greatest {
        number -= 1 << size;
    }
    assert!((least..=greatest).contains(&number), "{context}");
    // How far the sum lies above the least that gives this number.
    let above = sum - (number << shift);
    if (op, u) == (false, true) {
        // The low half: the quotient differs by a multiple of 2^size.
        assert!(
            above >= 0 && above % (1 << (size + shift)) < 1 << shift,
            "{context}"
        );
    } else if number == greatest {
        assert!(above >= 0, "{context}");
    } else if number == least {
        assert!(above < 1 << shift, "{context}");
    } else {
        assert!((0..1 << shift).contains(&above), "{context}");
    }
}

#[test]
fn every_element_of_16_bits() {
    for bits in 0..16 {
        for shift in 1..=8 {
            for x in 0..=0xffff {
                check(bits, 8, shift, x);
            }
        }
    }
}

/// Any bits, few bits and numbers near a power of two, of either sign.
#[test]
fn elements_of_32_and_64_bits() {
    let mut random = Random::new(41);
    for bits in 0..16 {
        for size in [16, 32] {
            for shift in 1..=size {
                for _ in 0..400 {
                    let any = random.next_u64();
                    let near = (1u64 << random.below(64)).wrapping_add(u64::from(random.below(5)));
                    for x in [any, any >> random.below(64), near.wrapping_sub(2), !near] {
                        let x = if size == 16 { x & 0xffff_ffff } else { x };
                        check(bits, size, shift, x);
                    }
                }
            }
        }
    }
}

/// A greater element never gives a smaller result where nothing is lost.
#[test]
fn results_do_not_fall() {
    for bits in (0..16).filter(|bits| bits >> 2 != 1) {
        let kind = Kind::from_number(bits);
        for shift in 1..=8 {
            // From the least element up, in the word's own reading.
            let offset = if kind.u { 0 } else { 0x8000 };
            let mut last = None;
            for step in 0..=0xffffu128 {
                let x = (step + offset) & 0xffff;
                let result = narrow_element(kind, 8, shift, x);
                let shown = if bits >> 2 == 2 {
                    result ^ 0x80
                } else {
                    result
                };
                assert!(last <= Some(shown), "{bits:04b} {shift} {x:x}");
                last = Some(shown);
            }
        }
    }
}
