//! Document 01's points on the board, as far as decoding goes, with document
//! 02's requests 1, 2 and 8. What is expected here is taken from the documents,
//! not from the program.

use reference::decode::decode;
use reference::encode::encode;
use reference::instruction::Instruction;
use reference::refusal::Refusal;
use reference::setting::{FULL, Setting};

const ALLOWED: [u32; 12] = [0, 1, 3, 4, 5, 7, 12, 13, 15, 28, 29, 31];

fn with(features: u32) -> Setting {
    Setting { vl: 128, features }
}

#[test]
fn point_1() {
    let expected = Instruction::Luti4c {
        size: 16,
        i1: 0,
        zn: 0,
        zd: 0,
    };
    assert_eq!(decode(FULL, 0xc08a_9000), Ok(expected));
    assert_eq!(decode(FULL, 0xc08a_8000), Err(Refusal::Undefined));
    assert_eq!(decode(FULL, 0xc08a_b000), Err(Refusal::Undefined));
}

#[test]
fn point_2() {
    let expected = Instruction::Luti4s {
        size: 16,
        i1: 0,
        zn: 0,
        zd: 0,
    };
    for features in ALLOWED {
        let found = decode(with(features), 0xc09a_9000);
        if features & 16 != 0 {
            assert_eq!(found, Ok(expected));
        } else {
            assert_eq!(found, Err(Refusal::Undefined));
        }
        assert_eq!(decode(with(features), 0xc09a_a000), Err(Refusal::Undefined));
    }
}

/// Document 01's point of UQRSHRNB, and request 1's family at each word.
#[test]
fn point_3() {
    let cases = [
        (0x4528_3800, 8, 8),
        (0x452f_3800, 8, 1),
        (0x4560_3800, 32, 32),
        (0x457f_3800, 32, 1),
    ];
    for (word, size, shift) in cases {
        for bits in 0..16 {
            let word = word & !0x3c00 | bits << 10;
            let expected = Instruction::Narrow {
                bits,
                size,
                shift,
                zn: 0,
                zd: 0,
            };
            assert_eq!(decode(FULL, word), Ok(expected));
            assert_eq!(encode(FULL, expected), Ok(word));
        }
        // UQRSHRNB is op:U:R:T 1110.
        let instruction = decode(FULL, word).unwrap();
        assert_eq!(instruction.fields(), [14, size, shift, 0, 0, 0]);
        assert_eq!(instruction.name(), "UQRSHRNB");
    }
    for bits in 0..16 {
        let word = 0x4520_0000 | bits << 10;
        assert_eq!(decode(FULL, word), Err(Refusal::Undefined));
    }
}

/// The words are PSEL by document 02, request 2.
#[test]
fn point_10() {
    // tszh:tszl is 0011, so xxx1: size 8, offset 001.
    let first = Instruction::Psel {
        size: 8,
        offset: 1,
        index: 12,
        pn: 0,
        pm: 0,
        pd: 0,
    };
    // Element 0 for W12 = ffffffff: the whole sum, then modulo 16 elements.
    assert_eq!((0xffff_ffffu64 + 1) % 16, 0);
    let second = Instruction::Psel {
        size: 64,
        offset: 1,
        index: 12,
        pn: 0,
        pm: 0,
        pd: 0,
    };
    for (word, psel) in [(0x252c_4000, first), (0x25e0_4000, second)] {
        assert_eq!(decode(FULL, word), Ok(psel));
        assert_eq!(encode(FULL, psel), Ok(word));
        assert_eq!(psel.name(), "PSEL");
    }
}

/// Request 2's fields in the word: Pn, copied whole, is bits 13 to 10, Pm,
/// which supplies the element, bits 8 to 5, and Rv bits 17 and 16.
#[test]
fn fields_of_psel() {
    let psel = Instruction::Psel {
        size: 8,
        offset: 1,
        index: 14,
        pn: 9,
        pm: 6,
        pd: 3,
    };
    let word = 0x252c_4000 | 2 << 16 | 9 << 10 | 6 << 5 | 3;
    assert_eq!(decode(FULL, word), Ok(psel));
    assert_eq!(encode(FULL, psel), Ok(word));
    assert_eq!(psel.fields(), [8, 1, 14, 9, 6, 3]);
}

/// Request 8's fields in the words of both layouts: the size is bits 23 and
/// 22, the portions bits 10 to 8, PNn bits 7 to 5 and Pd bits 3 to 0.
#[test]
fn fields_of_pext() {
    for (first, portions, bits) in [
        (0, 1, 0b000),
        (1, 1, 0b001),
        (2, 1, 0b010),
        (3, 1, 0b011),
        (0, 2, 0b100),
        (2, 2, 0b101),
    ] {
        let pext = Instruction::Pext {
            size: 32,
            first,
            portions,
            counter: 13,
            pd: 6,
        };
        let word = 0x2520_7010 | 2 << 22 | bits << 8 | 5 << 5 | 6;
        assert_eq!(decode(FULL, word), Ok(pext));
        assert_eq!(encode(FULL, pext), Ok(word));
        assert_eq!(pext.fields(), [32, first, portions, 13, 6, 0]);
    }
    // Bits 10 and 9 set are neither layout.
    for word in [0x2520_7610, 0x2520_7710] {
        assert_eq!(decode(FULL, word), Err(Refusal::Undefined));
    }
}

#[test]
fn points_11_and_12() {
    let pair = Instruction::Pext {
        size: 8,
        first: 0,
        portions: 2,
        counter: 8,
        pd: 15,
    };
    assert_eq!(decode(FULL, 0x2520_741f), Ok(pair));
    assert_eq!(encode(FULL, pair), Ok(0x2520_741f));
    assert_eq!(pair.name(), "PEXT2");
    // i1 is kept although it has no effect at this size.
    let lookup = Instruction::Luti4c {
        size: 16,
        i1: 1,
        zn: 0,
        zd: 0,
    };
    assert_eq!(decode(FULL, 0xc08b_9000), Ok(lookup));
    assert_eq!(encode(FULL, lookup), Ok(0xc08b_9000));
}

#[test]
fn words_of_the_listing() {
    let pext = Instruction::Pext {
        size: 8,
        first: 0,
        portions: 1,
        counter: 8,
        pd: 0,
    };
    assert_eq!(decode(FULL, 0x2520_7010), Ok(pext));
    assert_eq!(encode(FULL, pext), Ok(0x2520_7010));
    assert_eq!(pext.name(), "PEXT1");
    // PSEL's fixed bits, but tszh:tszl is 0000.
    assert_eq!(decode(FULL, 0x2520_4000), Err(Refusal::Undefined));
}

/// A word of each row, and the allowed feature numbers it is defined under.
#[test]
fn features_of_each_row() {
    let narrowing: &[u32] = &[1, 3, 4, 5, 7, 12, 13, 15, 28, 29, 31];
    let family = (0..16).map(|k| (0x4528_0000 + k * 0x400, narrowing));
    let others: [(u32, &[u32]); 5] = [
        (0x2520_7010, &[3, 7, 12, 13, 15, 28, 29, 31]),
        (0x2520_741f, &[3, 7, 12, 13, 15, 28, 29, 31]),
        // SME or SVE2p1, by document 02, request 2.
        (0x252c_4000, &[3, 4, 5, 7, 12, 13, 15, 28, 29, 31]),
        (0xc08a_9000, &[12, 13, 15, 28, 29, 31]),
        (0xc09a_9000, &[28, 29, 31]),
    ];
    for (word, defined) in others.into_iter().chain(family) {
        let instruction = decode(FULL, word).unwrap();
        for features in 0..300 {
            let decoded = decode(with(features), word);
            let encoded = encode(with(features), instruction);
            if !ALLOWED.contains(&features) {
                assert_eq!(decoded, Err(Refusal::Setting));
                assert_eq!(encoded, Err(Refusal::Setting));
            } else if !defined.contains(&features) {
                assert_eq!(decoded, Err(Refusal::Undefined));
                assert_eq!(encoded, Err(Refusal::Undefined));
            } else {
                assert_eq!(decoded, Ok(instruction));
                assert_eq!(encoded, Ok(word));
            }
        }
    }
}
