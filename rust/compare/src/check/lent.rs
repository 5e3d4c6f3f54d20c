//! What is lent to the library, between margins that nobody may touch.

use gighull::Scalars;
use reference::machine::{Flags, Machine, P_SLOT_BYTES, Z_SLOT_BYTES};

use super::{MARK, same};

const MARGIN: usize = 40;

/// Bytes to lend, with margins.
pub struct Lent {
    bytes: Vec<u8>,
    from: usize,
    length: usize,
}

impl Lent {
    /// The start moves with `shift`, so that not all have the same address in a
    /// cache line.
    pub fn of(content: &[u8], shift: usize) -> Lent {
        let from = MARGIN + shift;
        let mut bytes = Vec::with_capacity(from + content.len() + MARGIN);
        bytes.resize(from, MARK);
        bytes.extend_from_slice(content);
        bytes.resize(from + content.len() + MARGIN, MARK);
        Lent {
            bytes,
            from,
            length: content.len(),
        }
    }

    pub fn lend(&mut self) -> &mut [u8] {
        &mut self.bytes[self.from..self.from + self.length]
    }

    fn content(&self) -> &[u8] {
        &self.bytes[self.from..self.from + self.length]
    }

    fn margins_are_whole(&self, what: &str) -> Result<(), String> {
        let margins = [
            &self.bytes[..self.from],
            &self.bytes[self.from + self.length..],
        ];
        if margins
            .iter()
            .any(|margin| margin.iter().any(|&byte| byte != MARK))
        {
            return Err(format!("{what}: the library wrote beside it"));
        }
        Ok(())
    }

    /// The first byte that differs, by the name of its slot.
    pub fn same_as(&self, expected: &[u8], name: &str, slot: usize) -> Result<(), String> {
        self.margins_are_whole(name)?;
        let content = self.content();
        if content == expected {
            return Ok(());
        }
        let differ: Vec<usize> = (0..content.len())
            .filter(|&at| content[at] != expected[at])
            .collect();
        let at = differ[0];
        Err(format!(
            "{name}{} byte {}: reference {:02x}, library {:02x} ({} bytes of the file differ)",
            at / slot,
            at % slot,
            expected[at],
            content[at],
            differ.len()
        ))
    }
}

/// A machine lent to the library.
pub struct LentMachine {
    z: Lent,
    p: Lent,
    zt0: Lent,
    scalars: Scalars,
}

impl LentMachine {
    pub fn of(machine: &Machine) -> LentMachine {
        let [w12, w13, w14, w15] = machine.w;
        let Flags { v, s, t } = machine.flags;
        let shift = machine.w[0] as usize % 16;
        LentMachine {
            z: Lent::of(&machine.z, shift),
            p: Lent::of(&machine.p, shift / 2),
            zt0: Lent::of(&machine.zt0, shift / 4),
            scalars: Scalars {
                w12,
                w13,
                w14,
                w15,
                pc: machine.pc,
                v,
                s,
                t,
            },
        }
    }

    /// Z, P, ZT0 and the scalars.
    pub fn lend(&mut self) -> (&mut [u8], &mut [u8], &mut [u8], &mut Scalars) {
        let LentMachine { z, p, zt0, scalars } = self;
        (z.lend(), p.lend(), zt0.lend(), scalars)
    }

    pub fn same_as(&self, expected: &Machine) -> Result<(), String> {
        self.z.same_as(&expected.z, "Z", Z_SLOT_BYTES)?;
        self.p.same_as(&expected.p, "P", P_SLOT_BYTES)?;
        self.zt0.same_as(&expected.zt0, "ZT0 entry ", 4)?;
        let scalars = self.scalars;
        let w = [scalars.w12, scalars.w13, scalars.w14, scalars.w15];
        same("W12 to W15", expected.w, w)?;
        same("PC", expected.pc, scalars.pc)?;
        let flags = Flags {
            v: scalars.v,
            s: scalars.s,
            t: scalars.t,
        };
        same("flags", expected.flags, flags)
    }
}
