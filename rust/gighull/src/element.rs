//! The machine's elements, bits, counters and entries, by number.

use std::error::Error;
use std::fmt;

use crate::machine::{P_SLOT_BYTES, Z_SLOT_BYTES};
use crate::{Machine, P_REGISTERS, Z_REGISTERS, ZT0_ENTRIES};

impl Machine {
    /// Element `index`, from 0, of a Z register read as elements of `width`
    /// bits: 8, 16, 32 or 64. The whole slot has elements, whatever the VL.
    pub fn element(&self, register: u32, width: u32, index: u32) -> Result<u64, NoPlace> {
        let (at, bytes) = place_in_z(register, width, index)?;
        let mut value = [0; 8];
        value[..bytes].copy_from_slice(&self.z()[at..at + bytes]);
        Ok(u64::from_le_bytes(value))
    }

    /// Sets that element, to a value that it can hold.
    ///
    /// ```
    /// use gighull::{Machine, NoPlace};
    /// let mut machine = Machine::new();
    /// machine.set_element(31, 64, 31, u64::MAX)?;
    /// assert_eq!(machine.element(31, 8, 255)?, 0xff);
    /// assert_eq!(machine.set_element(0, 16, 0, 0x10000), Err(NoPlace::Value(0x10000)));
    /// assert_eq!(machine.set_element(32, 16, 0, 1), Err(NoPlace::Register(32)));
    /// assert_eq!(machine.set_element(0, 24, 0, 1), Err(NoPlace::Width(24)));
    /// assert_eq!(machine.set_element(0, 64, 32, 1), Err(NoPlace::Index(32)));
    /// # Ok::<(), NoPlace>(())
    /// ```
    pub fn set_element(
        &mut self,
        register: u32,
        width: u32,
        index: u32,
        value: u64,
    ) -> Result<(), NoPlace> {
        let (at, bytes) = place_in_z(register, width, index)?;
        if width < 64 && value >> width != 0 {
            return Err(NoPlace::Value(value));
        }
        self.z_mut()[at..at + bytes].copy_from_slice(&value.to_le_bytes()[..bytes]);
        Ok(())
    }

    /// Bit `bit`, from 0 to 255, of a P register.
    pub fn bit(&self, register: u32, bit: u32) -> Result<bool, NoPlace> {
        let (at, place) = place_in_p(register, bit)?;
        Ok(self.p()[at] & place != 0)
    }

    pub fn set_bit(&mut self, register: u32, bit: u32, value: bool) -> Result<(), NoPlace> {
        let (at, place) = place_in_p(register, bit)?;
        if value {
            self.p_mut()[at] |= place;
        } else {
            self.p_mut()[at] &= !place;
        }
        Ok(())
    }

    /// The low 16 bits of a P register: what a word that reads it as a counter
    /// finds.
    pub fn counter(&self, register: u32) -> Result<u16, NoPlace> {
        let (at, _) = place_in_p(register, 0)?;
        Ok(u16::from_le_bytes([self.p()[at], self.p()[at + 1]]))
    }

    /// Sets these 16 bits; those above stay.
    ///
    /// ```
    /// use gighull::{Machine, Setting};
    ///
    /// // Counter 0007: portion 0 at size 8 is 0007, at size 16 it is 0005.
    /// let mut machine = Machine::new();
    /// machine.set_counter(8, 0x0007)?;
    /// machine.step(Setting::FULL, 0x25207010)?;
    /// assert_eq!(machine.predicate(128, 0), [0x07, 0x00]);
    /// machine.step(Setting::FULL, 0x25607010)?;
    /// assert_eq!(machine.predicate(128, 0), [0x05, 0x00]);
    /// # Ok::<(), Box<dyn std::error::Error>>(())
    /// ```
    pub fn set_counter(&mut self, register: u32, counter: u16) -> Result<(), NoPlace> {
        let (at, _) = place_in_p(register, 0)?;
        self.p_mut()[at..at + 2].copy_from_slice(&counter.to_le_bytes());
        Ok(())
    }

    /// Entry `index`, from 0 to 15, of ZT0.
    pub fn entry(&self, index: u32) -> Result<u32, NoPlace> {
        let at = place_in_zt0(index)?;
        let mut value = [0; 4];
        value.copy_from_slice(&self.zt0()[at..at + 4]);
        Ok(u32::from_le_bytes(value))
    }

    /// ```
    /// use gighull::{Machine, NoPlace};
    /// let mut machine = Machine::new();
    /// machine.set_entry(15, 0x01020304)?;
    /// assert_eq!(machine.entry(15)?, 0x01020304);
    /// assert_eq!(machine.zt0()[60..], [4, 3, 2, 1]);
    /// assert_eq!(machine.entry(16), Err(NoPlace::Index(16)));
    /// # Ok::<(), NoPlace>(())
    /// ```
    pub fn set_entry(&mut self, index: u32, value: u32) -> Result<(), NoPlace> {
        let at = place_in_zt0(index)?;
        self.zt0_mut()[at..at + 4].copy_from_slice(&value.to_le_bytes());
        Ok(())
    }
}

/// A register, element, bit or entry that the machine does not have, or a
/// value that does not fit.
#[derive(Clone, Copy, Debug, PartialEq, Eq, Hash)]
pub enum NoPlace {
    Register(u32),
    Width(u32),
    Index(u32),
    Value(u64),
}

impl fmt::Display for NoPlace {
    fn fmt(&self, out: &mut fmt::Formatter) -> fmt::Result {
        match self {
            NoPlace::Register(register) => write!(out, "there is no register {register}"),
            NoPlace::Width(width) => write!(out, "elements have no {width} bits"),
            NoPlace::Index(index) => write!(out, "there is no place {index}"),
            NoPlace::Value(value) => write!(out, "{value:#x} does not fit"),
        }
    }
}

impl Error for NoPlace {}

/// Where an element starts in the Z file, and how many bytes it has.
fn place_in_z(register: u32, width: u32, index: u32) -> Result<(usize, usize), NoPlace> {
    if register >= Z_REGISTERS {
        return Err(NoPlace::Register(register));
    }
    if ![8, 16, 32, 64].contains(&width) {
        return Err(NoPlace::Width(width));
    }
    let bytes = width as usize / 8;
    let index_in_slot = index as usize;
    if index_in_slot >= Z_SLOT_BYTES / bytes {
        return Err(NoPlace::Index(index));
    }
    let at = register as usize * Z_SLOT_BYTES + index_in_slot * bytes;
    Ok((at, bytes))
}

/// The byte of the P file that a bit is in, and its place there.
fn place_in_p(register: u32, bit: u32) -> Result<(usize, u8), NoPlace> {
    if register >= P_REGISTERS {
        return Err(NoPlace::Register(register));
    }
    if bit as usize >= 8 * P_SLOT_BYTES {
        return Err(NoPlace::Index(bit));
    }
    let at = register as usize * P_SLOT_BYTES + bit as usize / 8;
    Ok((at, 1 << (bit % 8)))
}

fn place_in_zt0(index: u32) -> Result<usize, NoPlace> {
    if index >= ZT0_ENTRIES {
        return Err(NoPlace::Index(index));
    }
    Ok(index as usize * 4)
}
