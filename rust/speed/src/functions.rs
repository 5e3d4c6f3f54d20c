//! The functions of an archive that are timed, by their addresses, and the
//! machine that is lent to them.

use std::ffi::c_void;
use std::mem::transmute;

use gighull::ffi::c;
use gighull::{P_FILE_BYTES, Scalars, Z_FILE_BYTES, ZT0_FILE_BYTES};

use crate::cases::{FEATURES, Files, Machine};
use crate::object::{Object, base};
use crate::timing::{Outcome, steps};

type Run = unsafe extern "C" fn(
    *mut u8,
    usize,
    *mut u8,
    usize,
    *mut u8,
    usize,
    u32,
    u32,
    u32,
    u32,
    *mut u64,
    bool,
    bool,
    bool,
    u32,
    u32,
    *const u32,
    usize,
    *mut usize,
) -> u32;
type Step = unsafe extern "C" fn(
    *mut u8,
    usize,
    *mut u8,
    usize,
    *mut u8,
    usize,
    *mut Scalars,
    u32,
    u32,
    u32,
) -> u32;
type Lines = unsafe extern "C" fn(*const u8, usize, *mut u8, usize, *mut usize) -> usize;
type Version = unsafe extern "C" fn() -> u32;

/// The types are those of the declarations, which a test compares with the
/// header.
const _: (Run, Step, Lines) = (c::gighull_run, c::gighull_step, c::gighull_lines);
const _: Version = c::gighull_interface_version;

/// Each file begins with a cache line: where it does changes times by some per
/// cent.
#[derive(Clone, PartialEq, Eq)]
#[repr(C, align(64))]
pub struct Lent {
    z: [u8; Z_FILE_BYTES],
    p: [u8; P_FILE_BYTES],
    zt: [u8; ZT0_FILE_BYTES],
    scalars: Scalars,
}

impl Lent {
    pub fn start(scalars: Scalars) -> Box<Lent> {
        let Machine { z, p, zt, scalars } = Machine::start(Files::Random, scalars);
        let right = "a machine's files have their lengths";
        Box::new(Lent {
            z: z.try_into().expect(right),
            p: p.try_into().expect(right),
            zt: zt.try_into().expect(right),
            scalars,
        })
    }
}

/// What they do is taken on trust, as of the archive that is linked.
pub struct Functions {
    run: Run,
    step: Step,
    lines: Lines,
}

impl Functions {
    pub(crate) fn of(object: &Object) -> Result<Functions, String> {
        let run = object.function(c"gighull_run")?;
        let step = object.function(c"gighull_step")?;
        let lines = object.function(c"gighull_lines")?;
        // SAFETY: functions of these names have these types, in every archive
        // that is made for the header.
        unsafe {
            Ok(Functions {
                run: transmute::<*mut c_void, Run>(run),
                step: transmute::<*mut c_void, Step>(step),
                lines: transmute::<*mut c_void, Lines>(lines),
            })
        }
    }

    /// The version of an object's interface; 1 where it says none.
    pub(crate) fn version(object: &Object) -> u32 {
        match object.function(c"gighull_interface_version") {
            // SAFETY: as above; nothing is lent.
            Ok(version) => unsafe { transmute::<*mut c_void, Version>(version)() },
            Err(_) => 1,
        }
    }

    pub(crate) fn addresses(&self) -> [usize; 3] {
        [self.run as usize, self.step as usize, self.lines as usize]
    }

    /// Where the objects begin that hold them.
    pub(crate) fn bases(&self) -> [Option<usize>; 3] {
        self.addresses().map(base)
    }

    /// A stretch of words through `gighull_run`.
    pub fn run(&self, machine: &mut Lent, vl: u32, words: &[u32]) -> Outcome {
        let Lent { z, p, zt, scalars } = machine;
        let mut done = 0;
        // SAFETY: the pointers and lengths are of slices and numbers that live
        // through the call and, being lent for writing, overlap nothing else;
        // the words are only read.
        let number = unsafe {
            (self.run)(
                z.as_mut_ptr(),
                z.len(),
                p.as_mut_ptr(),
                p.len(),
                zt.as_mut_ptr(),
                zt.len(),
                scalars.w12,
                scalars.w13,
                scalars.w14,
                scalars.w15,
                &mut scalars.pc,
                scalars.v,
                scalars.s,
                scalars.t,
                vl,
                FEATURES,
                words.as_ptr(),
                words.len(),
                &mut done,
            )
        };
        (number, done)
    }

    /// Words one by one through `gighull_step`.
    pub fn steps(&self, machine: &mut Lent, vl: u32, words: &[u32]) -> Outcome {
        let Lent { z, p, zt, scalars } = machine;
        steps(words, |word| {
            // SAFETY: as for `run`.
            unsafe {
                (self.step)(
                    z.as_mut_ptr(),
                    z.len(),
                    p.as_mut_ptr(),
                    p.len(),
                    zt.as_mut_ptr(),
                    zt.len(),
                    scalars,
                    vl,
                    FEATURES,
                    word,
                )
            }
        })
    }

    /// A listing through `gighull_lines`: how many bytes were read, and how many
    /// written.
    pub fn lines(&self, input: &[u8], out: &mut [u8]) -> (usize, usize) {
        let mut written = 0;
        // SAFETY: as for `run`; the input is only read.
        let read = unsafe {
            (self.lines)(
                input.as_ptr(),
                input.len(),
                out.as_mut_ptr(),
                out.len(),
                &mut written,
            )
        };
        (read, written)
    }
}
