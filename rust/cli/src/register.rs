//! Registers by their names, and their elements.

use std::fmt;

use gighull::{Machine, P_REGISTERS, Z_REGISTERS, ZT0_ENTRIES};

/// A register of the three files, or an index register.
#[derive(Clone, Copy, Debug, PartialEq, Eq, Hash, PartialOrd, Ord)]
pub enum Register {
    Z(u32),
    P(u32),
    Zt0,
    /// W12 to W15
    W(u32),
}

impl Register {
    /// The registers of the files, in the order in which they are told.
    pub fn of_files() -> impl Iterator<Item = Register> {
        let z = (0..Z_REGISTERS).map(Register::Z);
        let p = (0..P_REGISTERS).map(Register::P);
        z.chain(p).chain([Register::Zt0])
    }

    /// `z31`, `p15`, `pn8` (which is P8), `zt0`, `w12`, in either case.
    pub fn from_name(name: &str) -> Option<Register> {
        let name = name.to_ascii_lowercase();
        if name == "zt0" {
            return Some(Register::Zt0);
        }
        let number = |prefix, from, below| {
            let digits: &str = name.strip_prefix(prefix)?;
            let number: u32 = digits.parse().ok()?;
            // No sign, no leading zero: one register has one name.
            let plain = number.to_string() == digits;
            (plain && (from..below).contains(&number)).then_some(number)
        };
        number("z", 0, Z_REGISTERS)
            .map(Register::Z)
            .or_else(|| number("pn", 8, P_REGISTERS).map(Register::P))
            .or_else(|| number("p", 0, P_REGISTERS).map(Register::P))
            .or_else(|| number("w", 12, 16).map(Register::W))
    }

    /// What a word reads or writes of it, as bytes.
    pub fn bytes(self, machine: &Machine, vl: u32) -> Vec<u8> {
        match self {
            Register::Z(k) => machine.vector(vl, k),
            Register::P(k) => machine.predicate(vl, k),
            Register::Zt0 => machine.zt0().to_vec(),
            Register::W(k) => {
                let value = machine.scalars.w(k).expect("W12 to W15 are there");
                value.to_le_bytes().to_vec()
            }
        }
    }
}

impl fmt::Display for Register {
    fn fmt(&self, out: &mut fmt::Formatter) -> fmt::Result {
        match self {
            Register::Z(k) => write!(out, "z{k}"),
            Register::P(k) => write!(out, "p{k}"),
            Register::Zt0 => out.write_str("zt0"),
            Register::W(k) => write!(out, "w{k}"),
        }
    }
}

/// The letters of the element widths. `n` (a nibble) is not Arm's: LUTI4's
/// indexes have 4 bits.
const WIDTHS: [(&str, u32); 5] = [("n", 4), ("b", 8), ("h", 16), ("s", 32), ("d", 64)];

/// 8, 16, 32 or 64 for `b`, `h`, `s` or `d`.
pub fn size_of_letter(letter: &str) -> Option<u32> {
    let (_, width) = WIDTHS.into_iter().find(|(name, _)| *name == letter)?;
    (width >= 8).then_some(width)
}

/// The letter of a width that has one.
pub fn letter_of(width: u32) -> &'static str {
    let found = WIDTHS.into_iter().find(|&(_, bits)| bits == width);
    found.map_or("?", |(letter, _)| letter)
}

/// A register of a file seen as elements of one width: `z4.h`.
#[derive(Clone, Copy, Debug, PartialEq, Eq, Hash)]
pub struct Elements {
    pub register: Register,
    pub width: u32,
}

impl Elements {
    /// Nothing for a register that has no elements of that width.
    pub fn new(register: Register, width: u32) -> Option<Elements> {
        let right = match register {
            Register::Z(_) => [4, 8, 16, 32, 64].contains(&width),
            Register::P(_) => [8, 16, 32, 64].contains(&width),
            Register::Zt0 => width == 32,
            Register::W(_) => false,
        };
        right.then_some(Elements { register, width })
    }

    /// `z3.h`, `p0.b`, `zt0.s`.
    pub fn from_name(name: &str) -> Option<Elements> {
        let lower = name.to_ascii_lowercase();
        let (register, letter) = lower.split_once('.')?;
        let (_, width) = WIDTHS.into_iter().find(|(known, _)| *known == letter)?;
        Elements::new(Register::from_name(register)?, width)
    }

    /// How many there are at a vector length.
    pub fn count(self, vl: u32) -> u32 {
        match self.register {
            Register::Zt0 => ZT0_ENTRIES,
            _ => vl / self.width,
        }
    }

    /// The greatest value that one holds.
    pub fn greatest(self) -> u64 {
        match self.register {
            Register::P(_) => 1,
            _ => u64::MAX >> (64 - self.width),
        }
    }

    /// The least one, where they have a sign.
    pub fn least(self) -> i64 {
        match self.register {
            Register::P(_) => 0,
            _ => i64::MIN >> (64 - self.width),
        }
    }

    /// A value's bits as a number with a sign: two's complement of the width.
    pub fn with_sign(self, value: u64) -> i64 {
        let above = 64 - self.width;
        (value << above) as i64 >> above
    }

    /// Element `index`, which must be one of them.
    pub fn get(self, machine: &Machine, index: u32) -> u64 {
        let value = match self.register {
            Register::Z(k) if self.width == 4 => machine
                .element(k, 8, index / 2)
                .map(|byte| byte >> (4 * (index % 2)) & 15),
            Register::Z(k) => machine.element(k, self.width, index),
            Register::P(k) => machine.bit(k, index * self.width / 8).map(u64::from),
            Register::Zt0 | Register::W(_) => machine.entry(index).map(u64::from),
        };
        value.expect("the element is one of the register's")
    }

    /// Sets element `index`, which must be one of them, to a value that it
    /// can hold.
    pub fn set(self, machine: &mut Machine, index: u32, value: u64) {
        let set = match self.register {
            Register::Z(k) if self.width == 4 => {
                let other = Elements { width: 8, ..self }.get(machine, index / 2);
                let shift = 4 * (index % 2);
                let byte = other & !(15 << shift) | value << shift;
                machine.set_element(k, 8, index / 2, byte)
            }
            Register::Z(k) => machine.set_element(k, self.width, index, value),
            Register::P(k) => machine.set_bit(k, index * self.width / 8, value != 0),
            Register::Zt0 | Register::W(_) => machine.set_entry(index, value as u32),
        };
        set.expect("the element is one of the register's and holds the value");
    }

    pub fn all(self, machine: &Machine, vl: u32) -> Vec<u64> {
        (0..self.count(vl))
            .map(|index| self.get(machine, index))
            .collect()
    }
}

impl fmt::Display for Elements {
    fn fmt(&self, out: &mut fmt::Formatter) -> fmt::Result {
        write!(out, "{}.{}", self.register, letter_of(self.width))
    }
}

#[cfg(test)]
mod tests {
    use super::*;

    #[test]
    fn names() {
        for register in Register::of_files().chain((12..16).map(Register::W)) {
            assert_eq!(Register::from_name(&register.to_string()), Some(register));
        }
        assert_eq!(Register::from_name("PN15"), Some(Register::P(15)));
        for name in [
            "",
            "z",
            "z32",
            "z-1",
            "z+1",
            "z01",
            "p16",
            "pn7",
            "pn16",
            "w11",
            "w16",
            "zt1",
            "x0",
            "z4294967296",
            "zé",
        ] {
            assert_eq!(Register::from_name(name), None, "{name}");
        }
        for name in ["z0.n", "z31.d", "p3.b", "zt0.s"] {
            assert_eq!(Elements::from_name(name).unwrap().to_string(), name);
        }
        for name in ["z0", "z0.", "z0.q", "z32.b", "p0.n", "zt0.h", "w12.s", ".h"] {
            assert_eq!(Elements::from_name(name), None, "{name}");
        }
    }

    #[test]
    fn signs() {
        let signed = |name: &str, value| Elements::from_name(name).unwrap().with_sign(value);
        assert_eq!([0, 7, 8, 15].map(|n| signed("z0.n", n)), [0, 7, -8, -1]);
        assert_eq!([0x7f, 0x80].map(|b| signed("z0.b", b)), [127, -128]);
        assert_eq!(signed("zt0.s", 0xffff_fffe), -2);
        assert_eq!(signed("z0.d", u64::MAX), -1);
        assert_eq!(signed("z0.d", 1 << 63), i64::MIN);
        for name in ["z0.n", "z0.b", "z0.h", "z0.s", "z0.d", "zt0.s"] {
            let elements = Elements::from_name(name).unwrap();
            let bits = elements.least() as u64 & elements.greatest();
            assert_eq!(elements.with_sign(bits), elements.least());
            assert_eq!(elements.with_sign(bits - 1), -(elements.least() + 1));
        }
    }

    #[test]
    fn elements_stand_side_by_side() {
        for vl in [128, 2048] {
            for name in [
                "z5.n", "z5.b", "z5.h", "z5.s", "z5.d", "p7.b", "p7.d", "zt0.s",
            ] {
                let elements = Elements::from_name(name).unwrap();
                let mut machine = Machine::new();
                let value = |index: u32| (u64::from(index) * 0x9e37_79b9 + 1) & elements.greatest();
                for index in (0..elements.count(vl)).rev() {
                    elements.set(&mut machine, index, value(index));
                }
                let expected: Vec<u64> = (0..elements.count(vl)).map(value).collect();
                assert_eq!(elements.all(&machine, vl), expected, "{name}");
            }
        }
    }
}
