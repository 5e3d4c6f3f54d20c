//! The proved library as safe Rust.
//!
//! What is proved is crates/gighull of this repository, which the build script
//! links as a static library over its C interface (include/gighull.h). This
//! crate is not proved: its declarations are compared with the header and the
//! library by a test, and what they give with the reference, by `compare`.
//!
//! - [`Machine`]: the three files and the scalars; [`step`](Machine::step),
//!   [`run`](Machine::run), elements, bits and entries, a register's bytes
//! - [`Setting`]: a vector length and a feature number
//! - [`decode`] and [`encode`], between words and [`Instruction`]s
//! - [`conflict`] and [`permitted`]: which words may change places
//! - [`psel_index`]: the sum, mask and index of PSEL's [`IndexUnit`]
//! - [`lines`]: the listing
//! - [`Refusal`]: document 01's numbers and words, as an error
//! - [`ffi`]: the C interface as it stands, for files and lists of any length
//!
//! The build script refuses an archive whose interface has another version than
//! [`INTERFACE_VERSION`].
//!
//! ```
//! use gighull::{Setting, decode, encode};
//!
//! let instruction = decode(Setting::FULL, 0x452f3822)?;
//! assert_eq!(instruction.to_string(), "UQRSHRNB size=8 shift=1 zn=1 zd=2");
//! assert_eq!(encode(Setting::FULL, instruction)?, 0x452f3822);
//! # Ok::<(), gighull::Refusal>(())
//! ```

mod element;
pub mod ffi;
mod index_unit;
mod instruction;
mod machine;
mod narrowing;
mod refusal;
mod scalars;
mod setting;
mod version;

pub use element::NoPlace;
pub use ffi::{Scalars, interface_version, step};
pub use index_unit::{IndexUnit, psel_index};
pub use instruction::{Form, Instruction};
pub use machine::{
    Machine, P_FILE_BYTES, P_REGISTERS, Z_FILE_BYTES, Z_REGISTERS, ZT0_ENTRIES, ZT0_FILE_BYTES,
};
pub use narrowing::Narrowing;
pub use refusal::{Answer, Refusal, Stopped};
pub use setting::{Setting, features};
pub use version::INTERFACE_VERSION;

/// The most words a run takes.
pub const LONGEST_STRETCH: usize = 256;

/// The most bytes that a line of a listing has, with its newline.
const LONGEST_LINE: usize = 19;

/// What a word is read as.
///
/// ```
/// use gighull::{Instruction, Refusal, Setting, decode};
/// let pext = |portions, pd| Instruction::Pext { size: 8, first: 0, portions, counter: 8, pd };
/// assert_eq!(decode(Setting::FULL, 0x25207010), Ok(pext(1, 0)));
/// assert_eq!(decode(Setting::FULL, 0x2520741f), Ok(pext(2, 15)));
/// assert_eq!(decode(Setting::FULL, 0x25204000), Err(Refusal::Undefined));
/// assert_eq!(decode(Setting::new(128, 2), 0x25207010), Err(Refusal::Setting));
/// ```
pub fn decode(setting: Setting, word: u32) -> Answer<Instruction> {
    let mut numbers = [0; ffi::FIELDS];
    let number = ffi::decode(setting.vl, setting.features, word, &mut numbers);
    Refusal::answer(number)?;
    let instruction = Instruction::from_numbers(numbers);
    Ok(instruction.expect("the library reads a word as one of its forms"))
}

/// The word that an instruction is written as.
///
/// ```
/// use gighull::{Instruction, Refusal, Setting, encode};
/// let psel = |size, offset| Instruction::Psel { size, offset, index: 12, pn: 0, pm: 0, pd: 0 };
/// assert_eq!(encode(Setting::FULL, psel(64, 1)), Ok(0x25e04000));
/// assert_eq!(encode(Setting::FULL, psel(64, 2)), Err(Refusal::Range));
/// assert_eq!(encode(Setting::new(128, 3), psel(64, 1)), Ok(0x25e04000));
/// assert_eq!(encode(Setting::new(128, 1), psel(64, 1)), Err(Refusal::Undefined));
/// let pext = |first, portions| Instruction::Pext { size: 8, first, portions, counter: 9, pd: 3 };
/// assert_eq!(encode(Setting::FULL, pext(2, 1)), Ok(0x25207233));
/// assert_eq!(encode(Setting::FULL, pext(2, 2)), Ok(0x25207533));
/// assert_eq!(encode(Setting::FULL, pext(1, 2)), Err(Refusal::Range));
/// assert_eq!(encode(Setting::FULL, pext(0, 3)), Err(Refusal::Range));
/// ```
pub fn encode(setting: Setting, instruction: Instruction) -> Answer<u32> {
    let mut word = 0;
    let numbers = instruction.numbers();
    let number = ffi::encode(setting.vl, setting.features, &numbers, &mut word);
    Refusal::answer(number).map(|()| word)
}

/// Whether two words conflict: one writes a register that the other reads or
/// writes.
///
/// ```
/// use gighull::{Refusal, Setting, conflict};
/// let narrow = 0x45283801; // Z0 to Z1
/// assert_eq!(conflict(Setting::FULL, narrow, narrow), Ok(true));
/// assert_eq!(conflict(Setting::FULL, narrow, 0x45283802), Ok(false)); // Z0 to Z2
/// assert_eq!(conflict(Setting::FULL, narrow, 0x45283822), Ok(true)); // Z1 to Z2
/// assert_eq!(conflict(Setting::FULL, narrow, 0), Err(Refusal::Undefined));
/// ```
pub fn conflict(setting: Setting, first: u32, second: u32) -> Answer<bool> {
    let mut yes = 0;
    let number = ffi::conflict(setting.vl, setting.features, first, second, &mut yes);
    Refusal::answer(number).map(|()| yes != 0)
}

/// Whether a stretch may be run in an order: `order[i]` is the position in
/// `words` of the word that comes i-th. An order that does not list each
/// position exactly once is not permitted.
///
/// ```
/// use gighull::{Refusal, Setting, permitted};
/// let words = [0x45283801, 0x45283802, 0x45283823]; // Z0 to Z1, Z0 to Z2, Z1 to Z3
/// assert_eq!(permitted(Setting::FULL, &words, &[1, 0, 2]), Ok(true));
/// assert_eq!(permitted(Setting::FULL, &words, &[2, 1, 0]), Ok(false));
/// assert_eq!(permitted(Setting::FULL, &words, &[0, 1]), Ok(false));
/// assert_eq!(permitted(Setting::FULL, &[0], &[0]), Err(Refusal::Undefined));
/// ```
pub fn permitted(setting: Setting, words: &[u32], order: &[u32]) -> Answer<bool> {
    let mut yes = 0;
    let number = ffi::permitted(setting.vl, setting.features, words, order, &mut yes);
    Refusal::answer(number).map(|()| yes != 0)
}

/// The listing of records of four bytes, low byte first.
///
/// ```
/// let input = [0x10, 0x70, 0x20, 0x25, 0x00, 0x40, 0x20, 0x25, 0x00, 0x38, 0x28, 0x45, 0xff];
/// assert_eq!(
///     gighull::lines(&input),
///     "25207010 PEXT1\n25204000 UNDEFINED\n45283800 UQRSHRNB\nSHORT 1\n"
/// );
/// ```
pub fn lines(input: &[u8]) -> String {
    // Room for every record and for the bytes left over.
    let mut out = vec![0; LONGEST_LINE * (input.len() / 4 + 1)];
    let mut written = 0;
    let read = ffi::lines(input, &mut out, &mut written);
    assert_eq!(read, input.len(), "there was room for all of it");
    out.truncate(written);
    String::from_utf8(out).expect("the library writes ASCII")
}
