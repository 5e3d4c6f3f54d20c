//! One question to both programs, as data and as a line of text.
//!
//! The text is a kind and then `name=value` words, for example
//!
//! ```text
//! step vl=128 features=31 word=45283801 z=8192@0=80 p=512 zt=64 w=0,0,0,0 pc=0 flags=vst
//! ```
//!
//! Words are hex, a file is its length and, behind each `@`, a place and the
//! bytes from there in hex, zero elsewhere; in a list `0*256` is 256 zeros;
//! `flags` names those that are open.

mod parsed;
mod shown;

use reference::machine::Machine;
use reference::setting::Setting;

/// An exported function of the library. A new one comes last: its place is in the
/// seeds of its cases.
#[derive(Clone, Copy, Debug, PartialEq, Eq, Hash)]
pub enum Kind {
    Decode,
    Encode,
    Step,
    Run,
    Conflict,
    Permitted,
    Vector,
    Predicate,
    Lines,
    Index,
}

impl Kind {
    pub const ALL: [Kind; 10] = [
        Kind::Decode,
        Kind::Encode,
        Kind::Step,
        Kind::Run,
        Kind::Conflict,
        Kind::Permitted,
        Kind::Vector,
        Kind::Predicate,
        Kind::Lines,
        Kind::Index,
    ];

    pub fn name(self) -> &'static str {
        match self {
            Kind::Decode => "decode",
            Kind::Encode => "encode",
            Kind::Step => "step",
            Kind::Run => "run",
            Kind::Conflict => "conflict",
            Kind::Permitted => "permitted",
            Kind::Vector => "vector",
            Kind::Predicate => "predicate",
            Kind::Lines => "lines",
            Kind::Index => "index",
        }
    }

    pub fn from_name(name: &str) -> Option<Kind> {
        Kind::ALL.into_iter().find(|kind| kind.name() == name)
    }
}

#[derive(Clone, Debug, PartialEq, Eq)]
pub enum Case {
    Decode {
        setting: Setting,
        word: u32,
        /// The length of the list for the fields.
        room: usize,
    },
    Encode {
        setting: Setting,
        numbers: Vec<u32>,
    },
    Step {
        setting: Setting,
        word: u32,
        machine: Machine,
    },
    Run {
        setting: Setting,
        words: Vec<u32>,
        machine: Machine,
    },
    Conflict {
        setting: Setting,
        first: u32,
        second: u32,
    },
    Permitted {
        setting: Setting,
        words: Vec<u32>,
        order: Vec<u32>,
    },
    Vector(Request),
    Predicate(Request),
    Lines {
        input: Vec<u8>,
        /// The length of the buffer for the text.
        room: usize,
    },
    Index(IndexQuestion),
}

/// A console's question for a register's bytes.
#[derive(Clone, Debug, PartialEq, Eq)]
pub struct Request {
    pub file: Vec<u8>,
    pub vl: u32,
    pub register: u32,
    /// The length of the buffer for the bytes.
    pub room: usize,
}

/// What PSEL's index unit is asked.
#[derive(Clone, Copy, Debug, PartialEq, Eq)]
pub struct IndexQuestion {
    pub vl: u32,
    pub size: u32,
    pub offset: u32,
    pub w: u32,
}

impl Case {
    pub fn kind(&self) -> Kind {
        match self {
            Case::Decode { .. } => Kind::Decode,
            Case::Encode { .. } => Kind::Encode,
            Case::Step { .. } => Kind::Step,
            Case::Run { .. } => Kind::Run,
            Case::Conflict { .. } => Kind::Conflict,
            Case::Permitted { .. } => Kind::Permitted,
            Case::Vector(_) => Kind::Vector,
            Case::Predicate(_) => Kind::Predicate,
            Case::Lines { .. } => Kind::Lines,
            Case::Index(_) => Kind::Index,
        }
    }
}

#[cfg(test)]
mod tests {
    use super::*;
    use crate::draw::{draw, random_of};

    #[test]
    fn every_case_comes_back_from_its_text() {
        for kind in Kind::ALL {
            for index in 0..300 {
                let case = draw(kind, &mut random_of(1, kind, index));
                assert_eq!(case.kind(), kind);
                let text = case.to_string();
                assert_eq!(Case::parse(&text).as_ref(), Ok(&case), "{text}");
            }
        }
    }

    #[test]
    fn wrong_texts_are_refused() {
        let good =
            "step vl=128 features=31 word=45283801 z=8@3=80 p=512 zt=64 w=0,0,0,0 pc=0 flags=";
        assert!(Case::parse(good).is_ok());
        for (part, other) in [
            ("step", "leap"),
            ("vl=128", "vl=x"),
            ("vl=128", ""),
            ("word=45283801", "word=45283801 word=0"),
            ("z=8@3=80", "z=8@8=80"),
            ("z=8@3=80", "z=8@3=8"),
            ("z=8@3=80", "z=8@3"),
            ("z=8@3=80", "z=999999999999"),
            ("w=0,0,0,0", "w=0,0,0"),
            ("pc=0", "pc=-1"),
            ("flags=", "flags"),
        ] {
            let bad = good.replace(part, other);
            assert!(Case::parse(&bad).is_err(), "{bad}");
        }
        assert!(Case::parse("").is_err());
        let good = "index vl=128 size=16 offset=1 w=ffffffff";
        assert!(Case::parse(good).is_ok());
        for (part, other) in [("w=ffffffff", ""), ("size=16", "size=h"), ("w=", "w=0,")] {
            let bad = good.replace(part, other);
            assert!(Case::parse(&bad).is_err(), "{bad}");
        }
    }
}
