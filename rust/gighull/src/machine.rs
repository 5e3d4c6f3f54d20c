//! The machine: three files and the scalars, and what runs on them.

use std::fmt;

use crate::{Answer, Refusal, Scalars, Setting, Stopped, ffi};

/// 32 slots of 256 bytes.
pub const Z_FILE_BYTES: usize = 8192;
/// 16 slots of 32 bytes.
pub const P_FILE_BYTES: usize = 512;
/// 16 entries of 4 bytes.
pub const ZT0_FILE_BYTES: usize = 64;

pub const Z_REGISTERS: u32 = 32;
pub const P_REGISTERS: u32 = 16;
pub const ZT0_ENTRIES: u32 = 16;

pub(crate) const Z_SLOT_BYTES: usize = 256;
pub(crate) const P_SLOT_BYTES: usize = 32;

/// A machine whose files have the right lengths. It owns them; to lend files
/// of one's own, of any lengths, there is [`ffi`].
///
/// ```
/// use gighull::{Machine, Setting};
///
/// // UQRSHRNB, result size 8, shift 8, from Z0 to Z1.
/// let mut machine = Machine::new();
/// machine.set_element(0, 16, 0, 0x0080)?;
/// machine.set_element(0, 16, 1, 0xff80)?;
/// machine.step(Setting::FULL, 0x45283801)?;
/// assert_eq!(machine.element(1, 16, 0)?, 1);
/// assert_eq!(machine.element(1, 16, 1)?, 255); // cut from 256
/// assert_eq!(machine.scalars.pc, 4);
/// # Ok::<(), Box<dyn std::error::Error>>(())
/// ```
#[derive(Clone, PartialEq, Eq)]
pub struct Machine {
    z: Box<[u8; Z_FILE_BYTES]>,
    p: Box<[u8; P_FILE_BYTES]>,
    zt0: [u8; ZT0_FILE_BYTES],
    /// W12 to W15, PC and the access flags.
    pub scalars: Scalars,
}

impl Machine {
    /// All zero, and all access open.
    pub fn new() -> Machine {
        Machine {
            z: Box::new([0; Z_FILE_BYTES]),
            p: Box::new([0; P_FILE_BYTES]),
            zt0: [0; ZT0_FILE_BYTES],
            scalars: Scalars::OPEN,
        }
    }

    /// With copies of these files; [`Refusal::FileLength`] where one has
    /// another length than a machine's.
    ///
    /// ```
    /// use gighull::{Machine, Refusal, Scalars};
    /// assert!(Machine::from_files(&[1; 8192], &[2; 512], &[3; 64], Scalars::OPEN).is_ok());
    /// let refused = Machine::from_files(&[1; 8191], &[2; 512], &[3; 64], Scalars::OPEN);
    /// assert_eq!(refused.err(), Some(Refusal::FileLength));
    /// ```
    pub fn from_files(z: &[u8], p: &[u8], zt0: &[u8], scalars: Scalars) -> Answer<Machine> {
        let mut machine = Machine::new();
        if z.len() != Z_FILE_BYTES || p.len() != P_FILE_BYTES || zt0.len() != ZT0_FILE_BYTES {
            return Err(Refusal::FileLength);
        }
        machine.z.copy_from_slice(z);
        machine.p.copy_from_slice(p);
        machine.zt0.copy_from_slice(zt0);
        machine.scalars = scalars;
        Ok(machine)
    }

    pub fn z(&self) -> &[u8; Z_FILE_BYTES] {
        &self.z
    }

    pub fn z_mut(&mut self) -> &mut [u8; Z_FILE_BYTES] {
        &mut self.z
    }

    pub fn p(&self) -> &[u8; P_FILE_BYTES] {
        &self.p
    }

    pub fn p_mut(&mut self) -> &mut [u8; P_FILE_BYTES] {
        &mut self.p
    }

    pub fn zt0(&self) -> &[u8; ZT0_FILE_BYTES] {
        &self.zt0
    }

    pub fn zt0_mut(&mut self) -> &mut [u8; ZT0_FILE_BYTES] {
        &mut self.zt0
    }

    /// One word. Where it is refused, nothing has changed.
    ///
    /// ```
    /// use gighull::{Machine, Refusal, Setting};
    /// let mut machine = Machine::new();
    /// assert_eq!(machine.step(Setting::FULL, 0x25207010), Ok(()));
    /// assert_eq!(machine.step(Setting::FULL, 0x25204000), Err(Refusal::Undefined));
    /// assert_eq!(machine.scalars.pc, 4);
    /// ```
    pub fn step(&mut self, setting: Setting, word: u32) -> Answer {
        let Setting { vl, features } = setting;
        let Machine { z, p, zt0, scalars } = self;
        let (z, p) = (&mut z[..], &mut p[..]);
        let number = ffi::step(z, p, zt0, scalars, vl, features, word);
        Refusal::answer(number)
    }

    /// A stretch of at most 256 words, from the first: how many were done,
    /// which is all of them, or where and by what it was stopped. The machine
    /// is as the words that were done left it.
    ///
    /// ```
    /// use gighull::{Machine, Refusal, Setting, Stopped};
    /// let mut machine = Machine::new();
    /// assert_eq!(machine.run(Setting::FULL, &[0x25207010, 0x45283801]), Ok(2));
    /// let stopped = Stopped { refusal: Refusal::Undefined, done: 1 };
    /// assert_eq!(machine.run(Setting::FULL, &[0x25207010, 0, 0x45283801]), Err(stopped));
    /// assert_eq!(machine.scalars.pc, 12);
    /// ```
    pub fn run(&mut self, setting: Setting, words: &[u32]) -> Result<usize, Stopped> {
        let mut done = 0;
        let Setting { vl, features } = setting;
        let Machine { z, p, zt0, scalars } = self;
        let (z, p) = (&mut z[..], &mut p[..]);
        let number = ffi::run(z, p, zt0, scalars, vl, features, words, &mut done);
        match Refusal::answer(number) {
            Ok(()) => Ok(done),
            Err(refusal) => Err(Stopped { refusal, done }),
        }
    }

    /// The VL/8 bytes of a Z register, as the library gives them: none for a
    /// register above 31 or a VL that is not allowed.
    ///
    /// ```
    /// use gighull::Machine;
    /// let mut machine = Machine::new();
    /// machine.set_element(3, 32, 1, 0x01020304)?;
    /// let bytes = machine.vector(128, 3);
    /// assert_eq!(bytes.len(), 16);
    /// assert_eq!(bytes[4..8], [4, 3, 2, 1]);
    /// assert!(machine.vector(128, 32).is_empty() && machine.vector(129, 3).is_empty());
    /// # Ok::<(), gighull::NoPlace>(())
    /// ```
    pub fn vector(&self, vl: u32, register: u32) -> Vec<u8> {
        let mut out = vec![0; Z_SLOT_BYTES];
        let count = ffi::vector(&self.z[..], vl, register, &mut out);
        out.truncate(count);
        out
    }

    /// The VL/64 bytes of a P register: none for a register above 15 or a VL
    /// that is not allowed.
    ///
    /// ```
    /// use gighull::Machine;
    /// let mut machine = Machine::new();
    /// machine.set_bit(15, 9, true)?;
    /// assert_eq!(machine.predicate(128, 15), [0, 2]);
    /// # Ok::<(), gighull::NoPlace>(())
    /// ```
    pub fn predicate(&self, vl: u32, register: u32) -> Vec<u8> {
        let mut out = vec![0; P_SLOT_BYTES];
        let count = ffi::predicate(&self.p[..], vl, register, &mut out);
        out.truncate(count);
        out
    }
}

impl Default for Machine {
    fn default() -> Machine {
        Machine::new()
    }
}

/// The registers that hold anything, and the scalars.
impl fmt::Debug for Machine {
    fn fmt(&self, out: &mut fmt::Formatter) -> fmt::Result {
        let mut shown = out.debug_struct("Machine");
        for (k, slot) in self.z.chunks(Z_SLOT_BYTES).enumerate() {
            if slot.iter().any(|&byte| byte != 0) {
                shown.field(&format!("z{k}"), &format_args!("{slot:02x?}"));
            }
        }
        for (k, slot) in self.p.chunks(P_SLOT_BYTES).enumerate() {
            if slot.iter().any(|&byte| byte != 0) {
                shown.field(&format!("p{k}"), &format_args!("{slot:02x?}"));
            }
        }
        let zt0 = self.zt0;
        shown
            .field("zt0", &format_args!("{zt0:02x?}"))
            .field("scalars", &self.scalars)
            .finish()
    }
}
