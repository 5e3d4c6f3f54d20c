//! Machines, and files of other lengths than a machine's.

use reference::machine::{Flags, Machine, P_FILE_BYTES, Z_FILE_BYTES, ZT0_FILE_BYTES};
use reference::random::Random;

use super::one_in;

pub fn machine(random: &mut Random) -> Machine {
    let mut machine = Machine {
        z: vector_file(random),
        p: predicate_file(random),
        zt0: table_file(random),
        w: [(); 4].map(|()| number_near_edges(random)),
        pc: match random.below(4) {
            0 => u64::MAX - u64::from(random.below(9)),
            1 => u64::from(number_near_edges(random)),
            _ => random.next_u64(),
        },
        flags: if one_in(random, 4) {
            let [v, s, t] = [(); 3].map(|()| random.coin());
            Flags { v, s, t }
        } else {
            Flags::OPEN
        },
    };
    if one_in(random, 24) {
        damage_length(random, &mut machine.z, 256);
    }
    if one_in(random, 24) {
        damage_length(random, &mut machine.p, 32);
    }
    if one_in(random, 24) {
        damage_length(random, &mut machine.zt0, 4);
    }
    machine
}

fn number_near_edges(random: &mut Random) -> u32 {
    match random.below(5) {
        0 => random.below(300),
        1 => u32::MAX - random.below(40),
        2 => (1u32 << random.below(32))
            .wrapping_add(random.below(5))
            .wrapping_sub(2),
        _ => random.next_u32(),
    }
}

/// A byte, a slot or more off, or nothing at all.
pub fn damage_length(random: &mut Random, file: &mut Vec<u8>, slot: usize) {
    let length = file.len();
    let other = match random.below(8) {
        0 => 0,
        1 => length - 1,
        2 => length + 1,
        3 => length - slot,
        4 => length + slot,
        5 => length / 2,
        6 => 2 * length,
        _ => random.below(2 * length as u32 + 1) as usize,
    };
    file.resize(other, 0x5a);
}

pub fn any_bytes(random: &mut Random, count: usize) -> Vec<u8> {
    let mut bytes = Vec::with_capacity(count + 8);
    while bytes.len() < count {
        bytes.extend_from_slice(&random.next_u64().to_le_bytes());
    }
    bytes.truncate(count);
    bytes
}

/// Zeros with a few bytes among them.
fn sparse_bytes(random: &mut Random, count: usize) -> Vec<u8> {
    let mut bytes = vec![0; count];
    for _ in 0..count / 64 {
        bytes[random.below(count as u32) as usize] = random.next_u32() as u8;
    }
    bytes
}

fn vector_file(random: &mut Random) -> Vec<u8> {
    match random.below(12) {
        0 => vec![0; Z_FILE_BYTES],
        1 => vec![0xff; Z_FILE_BYTES],
        2 => sparse_bytes(random, Z_FILE_BYTES),
        3 => vec![random.next_u32() as u8; Z_FILE_BYTES],
        4..=7 => file_of_edges(random),
        _ => any_bytes(random, Z_FILE_BYTES),
    }
}

/// Elements of 16, 32 or 64 bits near powers of two and sums of two of them:
/// where rounding carries and where results are cut. One register's worth, in
/// each slot turned by another number of elements.
fn file_of_edges(random: &mut Random) -> Vec<u8> {
    let width = random.pick(&[16, 32, 64]);
    let bytes = width as usize / 8;
    let mut slot = Vec::with_capacity(256);
    while slot.len() < 256 {
        let value = edge(random, width);
        slot.extend_from_slice(&value.to_le_bytes()[..bytes]);
    }
    let turn = bytes * (1 + random.below(8) as usize);
    let mut file = Vec::with_capacity(Z_FILE_BYTES);
    for k in 0..32 {
        let from = k * turn % 256;
        file.extend_from_slice(&slot[from..]);
        file.extend_from_slice(&slot[..from]);
    }
    file
}

fn edge(random: &mut Random, width: u32) -> u64 {
    let power = |random: &mut Random| 1u64 << random.below(width);
    let value = match random.below(8) {
        0 => 0,
        1 => u64::MAX,
        2 => power(random),
        3 => power(random).wrapping_sub(1),
        4 => power(random).wrapping_add(power(random)),
        5 => power(random).wrapping_sub(power(random)),
        6 => power(random).wrapping_sub(power(random)).wrapping_sub(1),
        _ => random.next_u64(),
    };
    value & (u64::MAX >> (64 - width))
}

fn predicate_file(random: &mut Random) -> Vec<u8> {
    let mut file = match random.below(8) {
        0 => vec![0; P_FILE_BYTES],
        1 => vec![0xff; P_FILE_BYTES],
        2 => sparse_bytes(random, P_FILE_BYTES),
        // Bits of larger elements.
        3 => any_bytes(random, P_FILE_BYTES)
            .into_iter()
            .map(|byte| byte & 0x11)
            .collect(),
        _ => any_bytes(random, P_FILE_BYTES),
    };
    if random.coin() {
        for slot in file.chunks_mut(32) {
            let counter = counter(random);
            slot[..2].copy_from_slice(&counter.to_le_bytes());
        }
    }
    file
}

/// A size, a count near one of the ends of a portion, and now and then bits
/// that are ignored.
fn counter(random: &mut Random) -> u16 {
    if one_in(random, 8) {
        return random.next_u32() as u16;
    }
    let z = random.below(4);
    let portion = (1u32 << random.below(10)) * random.below(5);
    let count = (portion + random.below(4)).wrapping_sub(random.below(4));
    let mut counter = 1 << z | count.wrapping_shl(z + 1);
    if random.coin() {
        counter |= 0x8000;
    } else {
        counter &= 0x7fff;
    }
    if one_in(random, 8) {
        counter &= !0xf;
    }
    counter as u16
}

fn table_file(random: &mut Random) -> Vec<u8> {
    match random.below(8) {
        0 => vec![0; ZT0_FILE_BYTES],
        1 => vec![0xff; ZT0_FILE_BYTES],
        2 => (0..ZT0_FILE_BYTES).map(|at| (at / 4 * 17) as u8).collect(),
        _ => any_bytes(random, ZT0_FILE_BYTES),
    }
}
