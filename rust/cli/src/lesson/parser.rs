//! A lesson's text, line by line.

use gighull::{Scalars, Setting, features};

use super::values::{counter, number, number_up_to, values};
use super::way::{self, Way};
use super::{Content, FEATURES, Flags, LENGTHS, Lesson, Order, Show, Start, Word, word};
use crate::failure::{Failure, quoted};
use crate::register::{Elements, Register};

/// The parts of a lesson, in their order.
#[derive(Clone, Copy, PartialEq, PartialOrd)]
enum Part {
    Setting,
    Contents,
    Words,
    Orders,
    End,
}

/// Each order is run on a machine of its own.
const MOST_ORDERS: usize = 100;

struct Parser {
    lesson: Lesson,
    part: Part,
    line: usize,
    /// What was set, by name, and where: nothing is set twice.
    set: Vec<(String, usize)>,
}

pub fn parse(name: &str, bytes: &[u8]) -> Result<Lesson, Failure> {
    let at = |line: usize| format!("{name}:{line}");
    let text = std::str::from_utf8(bytes).map_err(|error| {
        let before = &bytes[..error.valid_up_to()];
        let line = 1 + before.iter().filter(|&&byte| byte == b'\n').count();
        let byte = bytes[error.valid_up_to()];
        Failure::new(at(line), format!("byte {byte:02x} is no text (UTF-8)"))
    })?;
    let Scalars { v, s, t, .. } = Scalars::OPEN;
    let mut parser = Parser {
        lesson: Lesson {
            name: name.to_string(),
            setting: Setting::FULL,
            flags: Flags { v, s, t },
            contents: Vec::new(),
            words: Vec::new(),
            orders: Vec::new(),
            shows: Vec::new(),
        },
        part: Part::Setting,
        line: 0,
        set: Vec::new(),
    };
    for line in text.strip_prefix('\u{feff}').unwrap_or(text).lines() {
        parser.line += 1;
        let told = line.split('#').next().unwrap_or("").trim();
        if !told.is_empty() {
            parser
                .line(told)
                .map_err(|message| Failure::new(at(parser.line), message))?;
        }
    }
    if parser.part != Part::End {
        let message = "the line `end` is missing: is the lesson cut?";
        return Err(Failure::new(at(parser.line.max(1)), message));
    }
    Ok(parser.lesson)
}

impl Parser {
    /// A line without its comment, not empty.
    fn line(&mut self, line: &str) -> Result<(), String> {
        let (first, rest) = line.split_once(char::is_whitespace).unwrap_or((line, ""));
        if self.part == Part::End {
            return Err(format!("{} follows `end`", quoted(first)));
        }
        match first {
            "vl" => self.vl(rest.trim()),
            "features" => self.features(rest),
            "flags" => self.flags(rest),
            "show" => self.show(rest.trim()),
            "order" => self.order(rest),
            "end" if rest.trim().is_empty() => self.enter(Part::End),
            "end" => Err(format!("{} follows `end`", quoted(rest.trim()))),
            _ if Way::named(first)?.is_some() || word::hex(first).is_some() => self.word(line),
            _ => match line.split_once('=') {
                // Of a word's line, fields with a `=` follow the first name.
                Some((name, value)) if !name.trim().contains(char::is_whitespace) => {
                    self.content(name.trim(), value.trim())
                }
                Some(_) => Err(format!("{} is no form: {}", quoted(first), way::names())),
                None if first.bytes().all(|digit| digit.is_ascii_hexdigit()) => Err(format!(
                    "{} is no word: it has eight hex digits",
                    quoted(first)
                )),
                None => Err(format!(
                    "{} is no line of a lesson: vl, features, flags, a register and `=`, a word, order, show, end",
                    quoted(first)
                )),
            },
        }
    }

    /// Goes on to a part, never back to one.
    fn enter(&mut self, part: Part) -> Result<(), String> {
        if part < self.part {
            return Err(match part {
                Part::Setting => "vl, features and flags come before the registers",
                Part::Contents => "the registers come before the words",
                _ => "the words come before the orders",
            }
            .to_string());
        }
        self.part = part;
        Ok(())
    }

    fn once(&mut self, name: &str) -> Result<(), String> {
        if let Some((_, line)) = self.set.iter().find(|(known, _)| known == name) {
            return Err(format!("{name} stands on line {line} already"));
        }
        self.set.push((name.to_string(), self.line));
        Ok(())
    }

    fn vl(&mut self, text: &str) -> Result<(), String> {
        self.enter(Part::Setting)?;
        self.once("vl")?;
        self.lesson.setting.vl = length(text)?;
        Ok(())
    }

    fn features(&mut self, text: &str) -> Result<(), String> {
        self.enter(Part::Setting)?;
        self.once("features")?;
        let tokens: Vec<&str> = text.split_whitespace().collect();
        let mut bits = 0;
        match tokens.as_slice() {
            [] => return Err("features: names, a number from 0 to 31, or none".to_string()),
            ["none"] => {}
            [one] if number(one).is_some() => {
                bits = number_up_to("features", one, u64::from(features::ALL))? as u32;
            }
            names => {
                for name in names {
                    let known = FEATURES.iter().find(|(known, _)| known == name);
                    let (_, bit) = known.ok_or_else(|| {
                        let names = FEATURES.map(|(known, _)| known).join(", ");
                        format!("features: there is no {}: {names}", quoted(name))
                    })?;
                    bits |= bit;
                }
            }
        }
        self.lesson.setting.features = bits;
        if !self.lesson.setting.is_allowed() {
            return Err(
                "features: sve2p1 needs sve2, sme2 needs sme, and sme2p1 needs sme2".to_string(),
            );
        }
        Ok(())
    }

    fn flags(&mut self, text: &str) -> Result<(), String> {
        self.enter(Part::Setting)?;
        self.once("flags")?;
        let mut open = Flags {
            v: false,
            s: false,
            t: false,
        };
        let tokens: Vec<&str> = text.split_whitespace().collect();
        for token in &tokens {
            match *token {
                "v" => open.v = true,
                "s" => open.s = true,
                "t" => open.t = true,
                "none" if tokens.len() == 1 => {}
                _ => {
                    let token = quoted(token);
                    return Err(format!("flags: {token} is none of v, s, t (or none)"));
                }
            }
        }
        if tokens.is_empty() {
            return Err("flags: the open ones of v, s, t, or none".to_string());
        }
        self.lesson.flags = open;
        Ok(())
    }

    fn content(&mut self, name: &str, value: &str) -> Result<(), String> {
        let elements = Elements::from_name(name);
        let register = elements.map_or_else(|| Register::from_name(name), |its| Some(its.register));
        let key = match register {
            Some(register) => register.to_string(),
            None if name.eq_ignore_ascii_case("pc") => "pc".to_string(),
            None => return Err(unknown(name)),
        };
        self.enter(Part::Contents)?;
        self.once(&key)?;
        let vl = self.lesson.setting.vl;
        let start = match (elements, register) {
            (Some(elements), _) => Start::Elements {
                elements,
                values: values(elements, value, vl)?,
            },
            (None, Some(register)) => whole(register, value, vl)?,
            (None, None) => Start::Pc(number_up_to("pc", value, u64::MAX)?),
        };
        let line = self.line;
        self.lesson.contents.push(Content { line, start });
        Ok(())
    }

    fn word(&mut self, line: &str) -> Result<(), String> {
        self.enter(Part::Words)?;
        let word = word::word(line)?;
        let line = self.line;
        self.lesson.words.push(Word { line, word });
        Ok(())
    }

    /// Each position of the stretch, exactly once.
    fn order(&mut self, text: &str) -> Result<(), String> {
        self.enter(Part::Orders)?;
        let count = self.lesson.words.len();
        let mut positions = Vec::new();
        let mut seen = vec![false; count];
        for token in text.split_whitespace() {
            let position = number(token).filter(|&position| position < count as u64);
            let position = position.ok_or_else(|| {
                let token = quoted(token);
                format!("order: {token} is no position of a word: the first of {count} is 0")
            })?;
            if std::mem::replace(&mut seen[position as usize], true) {
                return Err(format!("order: word {position} comes twice"));
            }
            positions.push(position as u32);
        }
        if let Some(missing) = seen.iter().position(|&seen| !seen) {
            return Err(format!("order: word {missing} is left out"));
        }
        if self.lesson.orders.len() == MOST_ORDERS {
            return Err(format!("a lesson has at most {MOST_ORDERS} orders"));
        }
        let line = self.line;
        self.lesson.orders.push(Order { line, positions });
        Ok(())
    }

    fn show(&mut self, name: &str) -> Result<(), String> {
        let counter = name.starts_with("pn") && !name.contains('.');
        let show = match (Elements::from_name(name), Register::from_name(name)) {
            (Some(elements), _) => Show::Elements(elements),
            (None, Some(Register::P(k))) if counter => Show::Counter(k),
            _ => {
                let name = quoted(name);
                return Err(format!("show: {name} is none of z8.s, p0.b, zt0.s, pn8"));
            }
        };
        self.once(&format!("show {}", name.to_ascii_lowercase()))?;
        self.lesson.shows.push(show);
        Ok(())
    }
}

/// A register that is set without an element width.
fn whole(register: Register, value: &str, vl: u32) -> Result<Start, String> {
    let (first, rest) = value.split_once(char::is_whitespace).unwrap_or((value, ""));
    match (register, first) {
        (Register::W(register), _) => {
            let greatest = u64::from(u32::MAX);
            let value = number_up_to(&format!("w{register}"), value, greatest)? as u32;
            Ok(Start::W { register, value })
        }
        (Register::P(register), "counter") => {
            let counter = counter(rest, vl)?;
            Ok(Start::Counter { register, counter })
        }
        // The bits of a predicate are its elements of 8 bits.
        (Register::P(_), "bits") => {
            let elements = Elements { register, width: 8 };
            let values = values(elements, rest, vl)?;
            Ok(Start::Elements { elements, values })
        }
        (Register::P(k), _) => Err(format!(
            "p{k} is set by `p{k}.h = 1 0 1`, `p{k} = bits 1 0 1` or `p{k} = counter …`"
        )),
        (Register::Zt0, _) => Err("zt0 is set by `zt0.s = …`".to_string()),
        (Register::Z(k), _) => Err(format!(
            "z{k} is set by element: z{k}.n, z{k}.b, z{k}.h, z{k}.s or z{k}.d"
        )),
    }
}

fn unknown(name: &str) -> String {
    format!(
        "there is no {}: z0.h to z31.h (n, b, h, s, d), p0 to p15, pn8 to pn15, zt0.s, w12 to w15, pc",
        quoted(name)
    )
}

/// A vector length that boards have.
pub fn length(text: &str) -> Result<u32, String> {
    let found = number(text).and_then(|value| u32::try_from(value).ok());
    let found = found.filter(|value| LENGTHS.contains(value));
    let lengths = "128, 256, 512, 1024 or 2048";
    found.ok_or_else(|| format!("vl: {} is no vector length: {lengths}", quoted(text)))
}
