//! The machine that is lent: three files, four W registers, PC, three flags.

use crate::bits;

/// 32 slots of 256 bytes.
pub const Z_FILE_BYTES: usize = 8192;
/// 16 slots of 32 bytes.
pub const P_FILE_BYTES: usize = 512;
/// 16 entries of 4 bytes.
pub const ZT0_FILE_BYTES: usize = 64;

pub const Z_SLOT_BYTES: usize = 256;
pub const P_SLOT_BYTES: usize = 32;

/// The access flags, true where open.
#[derive(Clone, Copy, Debug, PartialEq, Eq, Hash)]
pub struct Flags {
    /// vector access
    pub v: bool,
    /// streaming
    pub s: bool,
    /// ZT0
    pub t: bool,
}

impl Flags {
    pub const OPEN: Flags = Flags {
        v: true,
        s: true,
        t: true,
    };

    /// Bit 0 is V, bit 1 is S, bit 2 is T.
    pub fn number(self) -> u32 {
        u32::from(self.v) | u32::from(self.s) << 1 | u32::from(self.t) << 2
    }

    pub fn from_number(number: u32) -> Option<Flags> {
        if number > 7 {
            return None;
        }
        Some(Flags {
            v: number & 1 != 0,
            s: number & 2 != 0,
            t: number & 4 != 0,
        })
    }
}

/// The files may have any length; only `step` and `run` ask about that.
#[derive(Clone, Debug, PartialEq, Eq)]
pub struct Machine {
    pub z: Vec<u8>,
    pub p: Vec<u8>,
    pub zt0: Vec<u8>,
    /// W12 to W15
    pub w: [u32; 4],
    pub pc: u64,
    pub flags: Flags,
}

impl Machine {
    /// All zero, all open, with files of the right lengths.
    pub fn zero() -> Machine {
        Machine {
            z: vec![0; Z_FILE_BYTES],
            p: vec![0; P_FILE_BYTES],
            zt0: vec![0; ZT0_FILE_BYTES],
            w: [0; 4],
            pc: 0,
            flags: Flags::OPEN,
        }
    }

    pub fn has_right_lengths(&self) -> bool {
        self.z.len() == Z_FILE_BYTES
            && self.p.len() == P_FILE_BYTES
            && self.zt0.len() == ZT0_FILE_BYTES
    }

    /// W12 to W15, by their own numbers.
    pub fn index_register(&self, register: u32) -> u32 {
        self.w[register as usize - 12]
    }

    /// The low VL bits of a Z register.
    pub fn vector(&self, register: u32, vl: u32) -> Vec<bool> {
        let slot = register as usize * Z_SLOT_BYTES;
        bits::read(&self.z[slot..slot + Z_SLOT_BYTES], vl as usize)
    }

    /// Sets the low bits of a Z register; those above stay.
    pub fn set_vector(&mut self, register: u32, value: &[bool]) {
        let slot = register as usize * Z_SLOT_BYTES;
        bits::write(&mut self.z[slot..slot + Z_SLOT_BYTES], value);
    }

    /// The low PL bits of a P register, PL being VL/8.
    pub fn predicate(&self, register: u32, vl: u32) -> Vec<bool> {
        let slot = register as usize * P_SLOT_BYTES;
        bits::read(&self.p[slot..slot + P_SLOT_BYTES], vl as usize / 8)
    }

    /// Sets the low bits of a P register; those above stay.
    pub fn set_predicate(&mut self, register: u32, value: &[bool]) {
        let slot = register as usize * P_SLOT_BYTES;
        bits::write(&mut self.p[slot..slot + P_SLOT_BYTES], value);
    }

    /// The whole of ZT0: 512 bits.
    pub fn table(&self) -> Vec<bool> {
        bits::read(&self.zt0, 512)
    }
}
