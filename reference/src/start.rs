//! What a step or a run starts from: the setting and a whole machine, its
//! files given by the few numbers they are made from.

use crate::expand::{Contents, NO_OVERRIDE, expand, hash};
use crate::machine::{
    Flags, Machine, P_FILE_BYTES, P_SLOT_BYTES, Z_FILE_BYTES, Z_SLOT_BYTES, ZT0_FILE_BYTES,
};
use crate::random::Random;
use crate::setting::Setting;

#[derive(Clone, Copy, Debug, PartialEq, Eq, Hash)]
pub struct Start {
    pub setting: Setting,
    pub flags: Flags,
    /// W12 to W15
    pub w: [u32; 4],
    pub pc: u64,
    pub contents: Contents,
}

/// W12 to W15, PC (high, low), flags, then the hashes of Z, P and ZT0 (high,
/// low).
pub type MachineNumbers = [u32; 13];

impl Start {
    /// Anything in the scalars and the files, which have their right lengths;
    /// all open.
    pub fn any(random: &mut Random, setting: Setting) -> Start {
        Start {
            setting,
            flags: Flags::OPEN,
            w: [(); 4].map(|()| random.next_u32()),
            pc: random.next_u64(),
            contents: Contents {
                seed: random.next_u64(),
                z_length: Z_FILE_BYTES as u32,
                p_length: P_FILE_BYTES as u32,
                zt_length: ZT0_FILE_BYTES as u32,
                p_at: NO_OVERRIDE,
                p_value: 0,
                z_at: NO_OVERRIDE,
                z_value: 0,
            },
        }
    }

    pub fn machine(&self) -> Machine {
        let files = expand(&self.contents);
        Machine {
            z: files.z,
            p: files.p,
            zt0: files.zt0,
            w: self.w,
            pc: self.pc,
            flags: self.flags,
        }
    }

    /// Chooses the 16 bits from a byte of a P register.
    pub fn set_predicate(&mut self, register: u32, byte: u32, value: u16) {
        self.contents.p_at = register * P_SLOT_BYTES as u32 + byte;
        self.contents.p_value = value;
    }

    /// Chooses the 32 bits from a byte of a Z register.
    pub fn set_vector(&mut self, register: u32, byte: u32, value: u32) {
        self.contents.z_at = register * Z_SLOT_BYTES as u32 + byte;
        self.contents.z_value = value;
    }

    /// Files are numbered Z, P, ZT0.
    pub fn set_length(&mut self, file: usize, length: u32) {
        let contents = &mut self.contents;
        match file {
            0 => contents.z_length = length,
            1 => contents.p_length = length,
            _ => contents.zt_length = length,
        }
    }
}

/// How a machine is told in an answer.
pub fn numbers_of(machine: &Machine) -> MachineNumbers {
    let [w12, w13, w14, w15] = machine.w;
    let (pc_high, pc_low) = halves(machine.pc);
    let (z_high, z_low) = halves(hash(&machine.z));
    let (p_high, p_low) = halves(hash(&machine.p));
    let (zt_high, zt_low) = halves(hash(&machine.zt0));
    let flags = machine.flags.number();
    [
        w12, w13, w14, w15, pc_high, pc_low, flags, z_high, z_low, p_high, p_low, zt_high, zt_low,
    ]
}

/// The upper and lower 32 bits.
pub fn halves(number: u64) -> (u32, u32) {
    ((number >> 32) as u32, number as u32)
}

pub fn from_halves(high: u32, low: u32) -> u64 {
    u64::from(high) << 32 | u64::from(low)
}
