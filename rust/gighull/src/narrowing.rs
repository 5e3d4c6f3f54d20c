//! The sixteen narrowing words by their bits op, U, R and T.

use std::sync::OnceLock;

/// Which of the sixteen narrowing words it is: bits 13 to 10 of the word, op:U:R:T
/// as one number.
///
/// ```
/// use gighull::Narrowing;
/// let narrowing = Narrowing::new(11).unwrap();
/// assert_eq!(narrowing.name(), "SQRSHRNT");
/// assert!(narrowing.op() && !narrowing.u() && narrowing.r() && narrowing.t());
/// assert_eq!(Narrowing::new(16), None);
/// ```
#[derive(Clone, Copy, Debug, PartialEq, Eq, Hash, PartialOrd, Ord)]
pub struct Narrowing(u8);

/// How many there are.
const COUNT: usize = 16;

impl Narrowing {
    /// By rising number.
    pub const ALL: [Narrowing; COUNT] = {
        let mut all = [Narrowing(0); COUNT];
        let mut number = 0;
        while number < COUNT {
            all[number] = Narrowing(number as u8);
            number += 1;
        }
        all
    };

    /// None for a number above 15.
    pub const fn new(number: u32) -> Option<Narrowing> {
        if number < COUNT as u32 {
            Some(Narrowing(number as u8))
        } else {
            None
        }
    }

    pub const fn number(self) -> u32 {
        self.0 as u32
    }

    pub const fn op(self) -> bool {
        self.0 & 8 != 0
    }

    /// U: the elements have no sign.
    pub const fn u(self) -> bool {
        self.0 & 4 != 0
    }

    /// R: the quotients are rounded.
    pub const fn r(self) -> bool {
        self.0 & 2 != 0
    }

    /// T: the odd elements are written, and the even ones stay.
    pub const fn t(self) -> bool {
        self.0 & 1 != 0
    }

    /// Whether the results have a sign.
    pub const fn is_signed(self) -> bool {
        self.op() && !self.u()
    }

    /// The manual's name, which the library gives in a listing.
    pub fn name(self) -> &'static str {
        static NAMES: OnceLock<Vec<String>> = OnceLock::new();
        &NAMES.get_or_init(listed)[usize::from(self.0)]
    }

    /// Result size 8, shift 8, from Z0 to Z0.
    const fn word(self) -> u32 {
        0x4528_0000 | self.number() << 10
    }
}

/// The names by number.
fn listed() -> Vec<String> {
    let words = Narrowing::ALL.map(Narrowing::word);
    let records: Vec<u8> = words.into_iter().flat_map(u32::to_le_bytes).collect();
    let text = crate::lines(&records);
    let name = |line: &str| line.split(' ').next_back().map(str::to_string);
    text.lines().filter_map(name).collect()
}
