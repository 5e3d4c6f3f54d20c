//! Lessons: what a lesson holds, and the machine that it starts from.

pub mod parser;
mod values;
pub mod way;
pub mod word;

use std::fs::File;
use std::io::Read;
use std::path::Path;

use gighull::{Machine, Setting, features};

use crate::counter::Counter;
use crate::failure::{Failure, name_of};
use crate::register::Elements;

/// More than this is no lesson: it has at most 256 words.
const LONGEST_LESSON: u64 = 1 << 20;

/// The vector lengths that boards have.
pub const LENGTHS: [u32; 5] = [128, 256, 512, 1024, 2048];

/// The features by their names in a lesson.
pub const FEATURES: [(&str, u32); 5] = [
    ("sve2", features::SVE2),
    ("sve2p1", features::SVE2P1),
    ("sme", features::SME),
    ("sme2", features::SME2),
    ("sme2p1", features::SME2P1),
];

/// A lesson as its text says it. Lines are counted from 1.
#[derive(Clone, Debug)]
pub struct Lesson {
    pub name: String,
    pub setting: Setting,
    pub flags: Flags,
    pub contents: Vec<Content>,
    pub words: Vec<Word>,
    pub orders: Vec<Order>,
    pub shows: Vec<Show>,
}

/// The access flags, true where open.
#[derive(Clone, Copy, Debug, PartialEq, Eq)]
pub struct Flags {
    pub v: bool,
    pub s: bool,
    pub t: bool,
}

impl Flags {
    /// The names of the open ones.
    pub fn open(self) -> String {
        named(&[("v", self.v), ("s", self.s), ("t", self.t)])
    }
}

/// The names of a feature number's bits.
pub fn feature_names(number: u32) -> String {
    named(&FEATURES.map(|(name, bit)| (name, number & bit != 0)))
}

/// Those that are there, or `none`.
fn named(names: &[(&str, bool)]) -> String {
    let there: Vec<&str> = (names.iter())
        .filter_map(|&(name, is_there)| is_there.then_some(name))
        .collect();
    if there.is_empty() {
        return "none".to_string();
    }
    there.join(" ")
}

/// What a register starts with.
#[derive(Clone, Debug, PartialEq, Eq)]
pub struct Content {
    pub line: usize,
    pub start: Start,
}

#[derive(Clone, Debug, PartialEq, Eq)]
pub enum Start {
    Elements { elements: Elements, values: Values },
    Counter { register: u32, counter: Counter },
    W { register: u32, value: u32 },
    Pc(u64),
}

/// Values from element 0 on; with `repeat` again and again to the last
/// element, at whatever length the vectors have.
#[derive(Clone, Debug, PartialEq, Eq)]
pub struct Values {
    /// By their bits.
    pub list: Vec<u64>,
    pub repeat: bool,
    /// One of them is written with a sign.
    pub signed: bool,
}

#[derive(Clone, Copy, Debug, PartialEq, Eq)]
pub struct Word {
    pub line: usize,
    pub word: u32,
}

/// Positions of words, from 0, in another order.
#[derive(Clone, Debug, PartialEq, Eq)]
pub struct Order {
    pub line: usize,
    pub positions: Vec<u32>,
}

/// A register to be shown, changed or not.
#[derive(Clone, Copy, Debug, PartialEq, Eq)]
pub enum Show {
    Elements(Elements),
    /// The counter in a P register.
    Counter(u32),
}

impl Lesson {
    pub fn read(path: &Path) -> Result<Lesson, Failure> {
        let mut bytes = Vec::new();
        let file = File::open(path).map_err(|error| Failure::of_file(path, &error))?;
        // One byte more tells a lesson that is too long; a device may never end.
        file.take(LONGEST_LESSON + 1)
            .read_to_end(&mut bytes)
            .map_err(|error| Failure::of_file(path, &error))?;
        let name = name_of(path);
        if bytes.len() as u64 > LONGEST_LESSON {
            let message = format!("a lesson has at most {LONGEST_LESSON} bytes");
            return Err(Failure::new(name, message));
        }
        Lesson::parse(&name, &bytes)
    }

    pub fn parse(name: &str, bytes: &[u8]) -> Result<Lesson, Failure> {
        parser::parse(name, bytes)
    }

    /// The words, without their lines.
    pub fn stretch(&self) -> Vec<u32> {
        self.words.iter().map(|word| word.word).collect()
    }

    /// The machine that it starts from, at any vector length, and a note for
    /// each line of which something is left out at that length.
    pub fn machine(&self, vl: u32) -> (Machine, Vec<String>) {
        let mut machine = Machine::new();
        let mut notes = Vec::new();
        let Flags { v, s, t } = self.flags;
        let scalars = &mut machine.scalars;
        (scalars.v, scalars.s, scalars.t) = (v, s, t);
        for Content { line, start } in &self.contents {
            match start {
                Start::Elements { elements, values } => {
                    let count = elements.count(vl);
                    for (index, value) in (0..count).zip(values.iter()) {
                        elements.set(&mut machine, index, value);
                    }
                    let listed = values.list.len();
                    if listed > count as usize {
                        notes.push(format!(
                            "line {line} lists {listed} elements of {elements}, and at VL {vl} the first {count} are taken"
                        ));
                    }
                }
                Start::Counter { register, counter } => {
                    let bits = counter.bits(vl);
                    let set = machine.set_counter(*register, bits);
                    set.expect("the lesson names a P register");
                    if let Some((count, all)) = counter.count_of(vl)
                        && count > all
                    {
                        notes.push(format!(
                            "line {line} counts {count} elements, and at VL {vl} four registers have {all}"
                        ));
                    }
                }
                Start::W { register, value } => {
                    let place = machine.scalars.w_mut(*register);
                    *place.expect("the lesson names W12 to W15") = *value;
                }
                Start::Pc(pc) => machine.scalars.pc = *pc,
            }
        }
        (machine, notes)
    }
}

impl Values {
    /// As many as there are, or without end.
    fn iter(&self) -> impl Iterator<Item = u64> {
        let times = if self.repeat { usize::MAX } else { 1 };
        let list = self.list.iter().copied();
        (0..times).flat_map(move |_| list.clone())
    }
}
