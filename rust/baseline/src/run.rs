//! One word, or a stretch of words, on lent files.

use crate::narrow;
use crate::predicates::{self, Predicates};
use crate::setting::{SVE2P1, Setting};
use crate::vectors::{self, Table, Vectors};
use crate::word::{Instruction, decode};

const LONGEST_STRETCH: usize = 256;

/// The lent files, of any length. No word writes ZT0.
pub struct Files<'a> {
    pub z: &'a mut [u8],
    pub p: &'a mut [u8],
    pub zt0: &'a [u8],
}

#[derive(Clone, Copy, Debug, PartialEq, Eq)]
pub struct Scalars {
    /// W12 to W15
    pub w: [u32; 4],
    pub pc: u64,
    /// vector access open
    pub v: bool,
    /// streaming on and open
    pub s: bool,
    /// ZT0 on and open
    pub t: bool,
}

#[derive(Clone, Copy, Debug, PartialEq, Eq)]
pub struct Outcome {
    pub number: u32,
    /// How many words were done.
    pub done: usize,
}

/// Executes one word and answers its number; where that is not 0, nothing has
/// changed.
pub fn step(setting: Setting, word: u32, files: &mut Files, scalars: &mut Scalars) -> u32 {
    let done = Machine::new(setting, files).and_then(|mut machine| machine.step(word, scalars));
    match done {
        Ok(()) => 0,
        Err(number) => number,
    }
}

/// Executes words until one is refused. The setting and the files' lengths do
/// not change on the way and are tested once.
pub fn run(setting: Setting, words: &[u32], files: &mut Files, scalars: &mut Scalars) -> Outcome {
    let mut machine = match Machine::new(setting, files) {
        Ok(machine) => machine,
        Err(number) => return Outcome { number, done: 0 },
    };
    if words.len() > LONGEST_STRETCH {
        return Outcome { number: 8, done: 0 };
    }
    for (done, &word) in words.iter().enumerate() {
        if let Err(number) = machine.step(word, scalars) {
            return Outcome { number, done };
        }
    }
    Outcome {
        number: 0,
        done: words.len(),
    }
}

/// Files of the right lengths, cut into registers, under an allowed setting.
struct Machine<'a> {
    z: &'a mut Vectors,
    p: &'a mut Predicates,
    zt0: &'a Table,
    vl: usize,
    features: u32,
}

impl<'a> Machine<'a> {
    /// Refuses with 1, then 2.
    fn new(setting: Setting, files: &'a mut Files) -> Result<Machine<'a>, u32> {
        if !setting.is_allowed() {
            return Err(1);
        }
        let (z, []) = files.z.as_chunks_mut() else {
            return Err(2);
        };
        let (p, []) = files.p.as_chunks_mut() else {
            return Err(2);
        };
        let (zt0, []) = files.zt0.as_chunks() else {
            return Err(2);
        };
        Ok(Machine {
            z: z.try_into().map_err(|_| 2u32)?,
            p: p.try_into().map_err(|_| 2u32)?,
            zt0: zt0.try_into().map_err(|_| 2u32)?,
            vl: setting.vl as usize,
            features: setting.features,
        })
    }

    /// Refuses with 3, then 4 or 5, then 6.
    fn step(&mut self, word: u32, scalars: &mut Scalars) -> Result<(), u32> {
        let vl = self.vl;
        match decode(self.features, word).ok_or(3u32)? {
            Instruction::Pext1 {
                size,
                portion,
                pn,
                pd,
            } => {
                self.pext_access(scalars)?;
                let counter = self.counter(pn);
                predicates::pext(counter, size, portion, vl, &mut self.p[pd][..vl / 64]);
            }
            Instruction::Pext2 {
                size,
                portion,
                pn,
                pd,
            } => {
                self.pext_access(scalars)?;
                let counter = self.counter(pn);
                let next = (pd + 1) % predicates::SLOTS;
                predicates::pext(counter, size, portion, vl, &mut self.p[pd][..vl / 64]);
                predicates::pext(counter, size, portion + 1, vl, &mut self.p[next][..vl / 64]);
            }
            Instruction::Psel {
                size,
                offset,
                rv,
                pn,
                pm,
                pd,
            } => {
                open(scalars.v, 4)?;
                predicates::psel(self.p, size, scalars.w[rv], offset, pn, pm, pd, vl);
            }
            Instruction::Luti4 {
                size,
                i1,
                zn,
                zd,
                stride,
            } => {
                open(scalars.s, 5)?;
                open(scalars.t, 6)?;
                if size == 16 {
                    vectors::luti4::<2>(self.z, self.zt0, i1, zn, zd, stride, vl);
                } else {
                    vectors::luti4::<4>(self.z, self.zt0, i1, zn, zd, stride, vl);
                }
            }
            Instruction::Narrow(word) => {
                open(scalars.v, 4)?;
                narrow::narrow(self.z, &word, vl);
            }
        }
        scalars.pc = scalars.pc.wrapping_add(4);
        Ok(())
    }

    fn pext_access(&self, scalars: &Scalars) -> Result<(), u32> {
        if self.features & SVE2P1 != 0 {
            open(scalars.v, 4)
        } else {
            open(scalars.s, 5)
        }
    }

    /// The low 16 bits of a P register.
    fn counter(&self, pn: usize) -> u16 {
        u16::from_le_bytes([self.p[pn][0], self.p[pn][1]])
    }
}

fn open(flag: bool, number: u32) -> Result<(), u32> {
    if flag { Ok(()) } else { Err(number) }
}
