//! A case from its text.

use reference::machine::{Flags, Machine};
use reference::setting::Setting;

use super::{Case, IndexQuestion, Kind, Request};

impl Case {
    pub fn parse(text: &str) -> Result<Case, String> {
        let mut words = text.split_whitespace();
        let name = words.next().ok_or("an empty case")?;
        let kind = Kind::from_name(name).ok_or_else(|| format!("{name:?} is no kind of case"))?;
        let mut given = Given::of(words)?;
        let case = match kind {
            Kind::Decode => Case::Decode {
                setting: given.setting()?,
                word: given.word("word")?,
                room: given.number("room")?,
            },
            Kind::Encode => Case::Encode {
                setting: given.setting()?,
                numbers: given.list("numbers", parse_number)?,
            },
            Kind::Step => Case::Step {
                setting: given.setting()?,
                word: given.word("word")?,
                machine: given.machine()?,
            },
            Kind::Run => Case::Run {
                setting: given.setting()?,
                words: given.list("words", parse_word)?,
                machine: given.machine()?,
            },
            Kind::Conflict => Case::Conflict {
                setting: given.setting()?,
                first: given.word("first")?,
                second: given.word("second")?,
            },
            Kind::Permitted => Case::Permitted {
                setting: given.setting()?,
                words: given.list("words", parse_word)?,
                order: given.list("order", parse_number)?,
            },
            Kind::Vector => Case::Vector(given.request()?),
            Kind::Predicate => Case::Predicate(given.request()?),
            Kind::Lines => Case::Lines {
                input: given.file("input")?,
                room: given.number("room")?,
            },
            Kind::Index => Case::Index(given.index_question()?),
        };
        given.nothing_left()?;
        Ok(case)
    }
}

/// The `name=value` words of a text, each taken once.
struct Given<'a>(Vec<(&'a str, &'a str)>);

impl<'a> Given<'a> {
    fn of(words: impl Iterator<Item = &'a str>) -> Result<Given<'a>, String> {
        let pairs = words.map(|word| {
            word.split_once('=')
                .ok_or_else(|| format!("{word:?} is not NAME=VALUE"))
        });
        Ok(Given(pairs.collect::<Result<_, _>>()?))
    }

    fn take(&mut self, name: &str) -> Result<&'a str, String> {
        let place = self.0.iter().position(|&(found, _)| found == name);
        let place = place.ok_or_else(|| format!("{name}= is missing"))?;
        Ok(self.0.remove(place).1)
    }

    fn nothing_left(&self) -> Result<(), String> {
        match self.0.first() {
            None => Ok(()),
            Some((name, _)) => Err(format!("{name}= is not known here, or is twice")),
        }
    }

    fn number<T: std::str::FromStr>(&mut self, name: &str) -> Result<T, String> {
        let text = self.take(name)?;
        text.parse()
            .map_err(|_| format!("{name}={text} is not a number"))
    }

    fn word(&mut self, name: &str) -> Result<u32, String> {
        let text = self.take(name)?;
        parse_word(text).ok_or_else(|| format!("{name}={text} is not a word in hex"))
    }

    fn list(&mut self, name: &str, parse: fn(&str) -> Option<u32>) -> Result<Vec<u32>, String> {
        let text = self.take(name)?;
        if text.is_empty() {
            return Ok(Vec::new());
        }
        let mut list = Vec::new();
        for item in text.split(',') {
            let (number, count) = item.split_once('*').unwrap_or((item, "1"));
            let (Some(number), Ok(count @ ..=LONGEST_FILE)) = (parse(number), count.parse()) else {
                return Err(format!("{item:?} in {name}= is not a number"));
            };
            list.resize(list.len() + count, number);
        }
        Ok(list)
    }

    fn setting(&mut self) -> Result<Setting, String> {
        Ok(Setting {
            vl: self.number("vl")?,
            features: self.number("features")?,
        })
    }

    fn file(&mut self, name: &str) -> Result<Vec<u8>, String> {
        let text = self.take(name)?;
        parse_file(text).ok_or_else(|| format!("{name}={text} is not LENGTH@PLACE=BYTES.."))
    }

    fn machine(&mut self) -> Result<Machine, String> {
        let w = self.list("w", parse_word)?;
        let pc = self.take("pc")?;
        let flags = self.take("flags")?;
        Ok(Machine {
            z: self.file("z")?,
            p: self.file("p")?,
            zt0: self.file("zt")?,
            w: w.try_into().map_err(|_| "w= is not four words")?,
            pc: u64::from_str_radix(pc, 16).map_err(|_| format!("pc={pc} is not in hex"))?,
            flags: Flags {
                v: flags.contains('v'),
                s: flags.contains('s'),
                t: flags.contains('t'),
            },
        })
    }

    fn request(&mut self) -> Result<Request, String> {
        Ok(Request {
            file: self.file("file")?,
            vl: self.number("vl")?,
            register: self.number("register")?,
            room: self.number("room")?,
        })
    }

    fn index_question(&mut self) -> Result<IndexQuestion, String> {
        Ok(IndexQuestion {
            vl: self.number("vl")?,
            size: self.number("size")?,
            offset: self.number("offset")?,
            w: self.word("w")?,
        })
    }
}

fn parse_word(text: &str) -> Option<u32> {
    u32::from_str_radix(text, 16).ok()
}

fn parse_number(text: &str) -> Option<u32> {
    text.parse().ok()
}

/// Longer files than this are not believed.
const LONGEST_FILE: usize = 1 << 20;

fn parse_file(text: &str) -> Option<Vec<u8>> {
    let mut parts = text.split('@');
    let length = parts.next()?.parse().ok()?;
    if length > LONGEST_FILE {
        return None;
    }
    let mut bytes = vec![0; length];
    for part in parts {
        let (place, digits) = part.split_once('=')?;
        let place: usize = place.parse().ok()?;
        if digits.len() % 2 != 0 || !digits.is_ascii() {
            return None;
        }
        for (n, pair) in digits.as_bytes().chunks(2).enumerate() {
            let pair = std::str::from_utf8(pair).ok()?;
            *bytes.get_mut(place.checked_add(n)?)? = u8::from_str_radix(pair, 16).ok()?;
        }
    }
    Some(bytes)
}
