//! Document 01's points 4 to 12, executed, points 4 and 5 for the whole
//! narrowing family and point 10 as PSEL. What is expected here is taken from
//! the documents, not from the program.

use reference::machine::Machine;
use reference::setting::{FULL, Setting};
use reference::step::step;

/// The machine after a word that must be accepted.
fn after(setting: Setting, word: u32, mut machine: Machine) -> Machine {
    assert_eq!(step(setting, word, &mut machine), Ok(()));
    machine
}

fn with_counter(counter: u16) -> Machine {
    let mut machine = Machine::zero();
    machine.p[8 * 32..8 * 32 + 2].copy_from_slice(&counter.to_le_bytes());
    machine
}

/// The low 16 bits of P0 after PEXT1 of P8 to P0; the size by its two bits.
fn pext(counter: u16, size_bits: u32, portion: u32) -> u16 {
    let word = 0x2520_7010 | size_bits << 22 | portion << 8;
    let machine = after(FULL, word, with_counter(counter));
    u16::from_le_bytes([machine.p[0], machine.p[1]])
}

#[test]
fn point_4() {
    let mut machine = Machine::zero();
    for (e, x) in [0x007fu16, 0x0080, 0xff7f, 0xff80].into_iter().enumerate() {
        machine.z[2 * e..2 * e + 2].copy_from_slice(&x.to_le_bytes());
    }
    let machine = after(FULL, 0x4528_3800, machine);
    assert_eq!(machine.z[..8], [0, 0, 1, 0, 255, 0, 255, 0]);
}

#[test]
fn point_5() {
    let mut machine = Machine::zero();
    machine.z[..16].fill(0xff);
    let machine = after(FULL, 0x457f_3800, machine);
    let expected = [[0xff; 4], [0; 4], [0xff; 4], [0; 4]].concat();
    assert_eq!(machine.z[..16], expected);
}

/// Point 4's elements for the whole family, by op:U:R; B clears the odd
/// elements and T keeps the even ones, here those of its own source.
#[test]
fn point_4_over_the_family() {
    let results = [
        [0, 0, 0, 0],       // SQSHRUN: -129 and -128 give -1, cut to 0
        [0, 1, 0, 0],       // SQRSHRUN: -1, cut to 0, and 0
        [0, 0, 0xff, 0xff], // SHRN
        [0, 1, 0xff, 0],    // RSHRN: the low half of 100
        [0, 0, 0xff, 0xff], // SQSHRN: -1
        [0, 1, 0xff, 0],    // SQRSHRN: -1 and 0
        [0, 0, 0xff, 0xff], // UQSHRN
        [0, 1, 0xff, 0xff], // UQRSHRN: cut from 256
    ];
    for (kind, [a, b, c, d]) in (0..).zip(results) {
        let mut machine = Machine::zero();
        machine.z[..8].copy_from_slice(&0xff80_ff7f_0080_007f_u64.to_le_bytes());
        machine.z[256..264].fill(0xee);
        let bottom = 0x4528_0000 | kind << 11;
        let top = bottom | 1 << 10;
        let left = after(FULL, bottom, machine.clone());
        assert_eq!(left.z[..8], [a, 0, b, 0, c, 0, d, 0], "{bottom:08x}");
        let left = after(FULL, top, machine.clone());
        let kept = [0x7f, a, 0x80, b, 0x7f, c, 0x80, d];
        assert_eq!(left.z[..8], kept, "{top:08x}");
        // Into Z1, where other bytes are kept.
        let left = after(FULL, top | 1, machine.clone());
        let kept = [0xee, a, 0xee, b, 0xee, c, 0xee, d];
        assert_eq!(left.z[256..264], kept, "{top:08x}");
        assert_eq!(left.z[..256], machine.z[..256]);
        // T after B fills both halves.
        let left = after(FULL, top | 1, after(FULL, bottom | 1, machine));
        assert_eq!(left.z[256..264], [a, a, b, b, c, c, d, d]);
    }
}

/// Point 5's element for the whole family: 2^64 - 1 where unsigned, else -1.
#[test]
fn point_5_over_the_family() {
    let greatest = u32::MAX;
    let results = [0, 0, greatest, 0, greatest, 0, greatest, greatest];
    for (kind, result) in (0..).zip(results) {
        let mut machine = Machine::zero();
        machine.z[..16].fill(0xff);
        let bottom = 0x457f_0000 | kind << 11;
        let left = after(FULL, bottom, machine.clone());
        let half = [result.to_le_bytes(), [0; 4]].concat();
        assert_eq!(left.z[..16], half.repeat(2), "{bottom:08x}");
        let left = after(FULL, bottom | 1 << 10, machine);
        let half = [[0xff; 4], result.to_le_bytes()].concat();
        assert_eq!(left.z[..16], half.repeat(2), "{bottom:08x}");
    }
}

#[test]
fn point_6() {
    assert_eq!(pext(0x0007, 0, 0), 0x0007);
    assert_eq!(pext(0x0007, 1, 0), 0x0005);
}

#[test]
fn point_7() {
    for portion in 0..4 {
        assert_eq!(pext(0x8001, 0, portion), 0xffff);
        assert_eq!(pext(0x0001, 0, portion), 0);
        assert_eq!(pext(0x8000, 0, portion), 0);
    }
}

#[test]
fn point_8() {
    for portion in 0..4 {
        assert_eq!(pext(0x0081, 0, portion), 0);
        // 32 elements in each portion at VL 256.
        let setting = Setting {
            vl: 256,
            features: 31,
        };
        let word = 0x2520_7010 | portion << 8;
        let machine = after(setting, word, with_counter(0x0081));
        let expected = if portion < 2 { [0xff; 4] } else { [0; 4] };
        assert_eq!(machine.p[..4], expected);
    }
}

#[test]
fn point_9() {
    let portions = [0, 1, 2, 3].map(|portion| pext(0x8021, 0, portion));
    assert_eq!(portions, [0, 0xffff, 0xffff, 0xffff]);
}

/// The low 16 bits of Pd after a PSEL of P0, P1 and P2, which hold these,
/// with W12 as given; the bits above stay, all of them set before.
fn psel(word: u32, base: u32, registers: [u16; 3]) -> u16 {
    let mut machine = Machine::zero();
    machine.w[0] = base;
    machine.p.fill(0xff);
    for (k, low) in registers.into_iter().enumerate() {
        machine.p[32 * k..32 * k + 2].copy_from_slice(&low.to_le_bytes());
    }
    let pd = 32 * (word & 15) as usize;
    let left = after(FULL, word, machine.clone());
    machine.p[pd..pd + 2].copy_from_slice(&left.p[pd..pd + 2]);
    machine.pc = 4;
    assert_eq!(left, machine);
    u16::from_le_bytes([left.p[pd], left.p[pd + 1]])
}

/// Point 10 by document 02, request 2.
#[test]
fn point_10() {
    // PSEL P0, P0, P0.B[W12, 1]: element 0 true, then false.
    for p0 in [0x0001, 0x8001, 0x7fff, 0xffff] {
        assert_eq!(psel(0x252c_4000, u32::MAX, [p0, 0, 0]), p0, "{p0:04x}");
    }
    for p0 in [0xfffe, 0x8000, 0x0002] {
        assert_eq!(psel(0x252c_4000, u32::MAX, [p0, 0, 0]), 0, "{p0:04x}");
    }
    // PSEL P0, P0, P0.D[W12, 1]: element 1 is bit 8. Where it is true all
    // sixteen bits stay, and the bits between elements do not make it true.
    for p0 in [0x0100, 0xffff, 0xfffe, 0x0180, 0x8142] {
        assert_eq!(psel(0x25e0_4000, 0, [p0, 0, 0]), p0, "{p0:04x}");
    }
    for p0 in [0xfefe, 0xfeff, 0x0080, 0x0200] {
        assert_eq!(psel(0x25e0_4000, 0, [p0, 0, 0]), 0, "{p0:04x}");
    }
    // Element 0 at an odd W12, also where the sum passes 2^32.
    for base in [1, 3, u32::MAX] {
        assert_eq!(psel(0x25e0_4000, base, [0x00ff, 0, 0]), 0x00ff);
        assert_eq!(psel(0x25e0_4000, base, [0xff00, 0, 0]), 0);
    }
}

/// PSEL P2, P0, P1.D[W12, 1]: P0 is copied, P1 decides, P2 is lost.
#[test]
fn point_10_with_three_registers() {
    let word = 0x25e0_4022;
    for p0 in [0, 0x0101, 0xfefe, 0x8421, 0xffff] {
        assert_eq!(psel(word, 0, [p0, 0x0100, 0x1234]), p0);
        assert_eq!(psel(word, 0, [p0, 0xfeff, 0x1234]), 0);
    }
}

#[test]
fn point_11() {
    // Portions 0 and 1 of a counter of 17 elements.
    let mut machine = with_counter(17 << 1 | 1);
    machine.p[32..34].fill(0xaa);
    let after = after(FULL, 0x2520_741f, machine.clone());
    assert_eq!(after.p[15 * 32..15 * 32 + 2], [0xff, 0xff]);
    assert_eq!(after.p[..2], [0x01, 0x00]);
    assert_eq!(after.p[2..15 * 32], machine.p[2..15 * 32]);
}

fn lookup_machine() -> Machine {
    let mut machine = Machine::zero();
    for entry in 0..16u32 {
        let value = 0xabcd_0000 | entry << 8 | 0x40 | entry;
        let at = 4 * entry as usize;
        machine.zt0[at..at + 4].copy_from_slice(&value.to_le_bytes());
    }
    for (place, byte) in machine.z[..16].iter_mut().enumerate() {
        // Indexes 0, 1, 2 and so on, low nibble first.
        let even = 2 * place as u8 % 16;
        *byte = even | (even + 1) << 4;
    }
    machine
}

/// Also: no later index is read from a Z0 already written.
#[test]
fn point_12() {
    let at_0 = after(FULL, 0xc08a_9000, lookup_machine());
    let at_1 = after(FULL, 0xc08b_9000, lookup_machine());
    assert_eq!(at_0, at_1);
    for r in 0..4 {
        for e in 0..8 {
            let index = (8 * r + e) % 16;
            let at = 256 * r + 2 * e;
            let expected = [0x40 | index as u8, index as u8];
            assert_eq!(at_0.z[at..at + 2], expected, "{r} {e}");
        }
    }
}

/// At size 32 i1 chooses the half of the source, and whole entries are taken.
#[test]
fn lookup_of_words() {
    for segment in 0..2 {
        let word = 0xc08a_a000 | segment << 16;
        let machine = after(FULL, word, lookup_machine());
        for r in 0..4 {
            for e in 0..4 {
                let index = (16 * segment as usize + 4 * r + e) % 16;
                let at = 256 * r + 4 * e;
                let expected = [0x40 | index as u8, index as u8, 0xcd, 0xab];
                assert_eq!(machine.z[at..at + 4], expected);
            }
        }
    }
}

#[test]
fn pc_wraps_and_is_not_aligned() {
    for (pc, next) in [
        (u64::MAX - 3, 0),
        (u64::MAX, 3),
        (u64::MAX - 4, u64::MAX),
        (1, 5),
        (0xffff_fffc, 0x1_0000_0000),
    ] {
        let mut machine = Machine::zero();
        machine.pc = pc;
        assert_eq!(after(FULL, 0x2520_7010, machine).pc, next);
    }
}
