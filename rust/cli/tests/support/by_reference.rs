//! A second, small reader of lessons, onto the reference's machine. It knows
//! only what the lessons of this repository use, and shares no code with the
//! command.

use reference::bits;
use reference::counter::Counter;
use reference::decode::decode;
use reference::encode::encode;
use reference::instruction::{Form, Instruction, NARROW_NAMES};
use reference::machine::Machine;
use reference::run::run;
use reference::setting::{FULL, Setting};
use reference::touch::{Register, touch};

pub struct Lesson {
    pub setting: Setting,
    pub start: Machine,
    pub end: Machine,
    pub answer: u32,
    pub done: usize,
    pub words: Vec<u32>,
    pub orders: Vec<Vec<usize>>,
    /// The registers that are given values with signs, by name and width.
    signed: Vec<String>,
}

impl Lesson {
    /// Whether elements such as `z8.h` have a sign after the first words: the
    /// last of these that wrote the register gives such results, or none wrote
    /// it and the lesson gives it values with signs.
    fn has_sign(&self, name: &str, words: usize) -> bool {
        let Some((register, letter)) = name.strip_prefix('z').and_then(|z| z.split_once('.'))
        else {
            return false;
        };
        let register = Register::Z(register.parse().unwrap());
        let last = self.words[..words]
            .iter()
            .map(|&word| decode(FULL, word).unwrap())
            .rfind(|&instruction| touch(instruction).writes.contains(&register));
        match last {
            // op is set and U is clear.
            Some(Instruction::Narrow { bits, size, .. }) => {
                bits & 0b1100 == 0b1000 && size as usize == width(letter)
            }
            Some(_) => false,
            None => self.signed.iter().any(|signed| signed == name),
        }
    }

    /// All elements of a register as numbers, after the first words.
    pub fn numbers(&self, machine: &Machine, name: &str, words: usize) -> Vec<i128> {
        let values = elements(machine, name, self.setting.vl).into_iter();
        if !self.has_sign(name, words) {
            return values.map(i128::from).collect();
        }
        let half = 1i128 << (width(name.split_once('.').unwrap().1) - 1);
        values
            .map(|value| (i128::from(value) + half) % (2 * half) - half)
            .collect()
    }
}

/// The lesson at a vector length, or at its own.
pub fn lesson(text: &str, vl: Option<u32>) -> Lesson {
    let mut setting = FULL;
    let mut start = Machine::zero();
    let mut words = Vec::new();
    let mut orders = Vec::new();
    let mut signed = Vec::new();
    for line in text.lines() {
        let line = line.split('#').next().unwrap().trim();
        let tokens: Vec<&str> = line.split_whitespace().collect();
        match tokens.as_slice() {
            [] | ["end"] | ["show", _] | ["flags", "v", "s", "t"] => {}
            ["vl", own] => setting.vl = vl.unwrap_or(own.parse().unwrap()),
            ["order", positions @ ..] => {
                orders.push(positions.iter().map(|p| p.parse().unwrap()).collect());
            }
            [name, "=", "counter", counter @ ..] => {
                let register = name.strip_prefix("pn").unwrap().parse().unwrap();
                set_counter(&mut start, register, counter, setting.vl);
            }
            [name, "=", value] if name.starts_with('w') => {
                let place: usize = name[1..].parse().unwrap();
                let hex = value.strip_prefix("0x");
                let hex = hex.map(|digits| u32::from_str_radix(digits, 16).unwrap());
                start.w[place - 12] = hex.unwrap_or_else(|| value.parse().unwrap());
            }
            [name, "=", values @ ..] => {
                if values.iter().any(|value| value.starts_with('-')) {
                    signed.push(name.to_string());
                }
                set_elements(&mut start, name, values, setting.vl);
            }
            [form, fields @ ..] => words.push(word(form, fields)),
        }
    }
    let mut end = start.clone();
    let outcome = run(setting, &words, &mut end);
    Lesson {
        setting,
        start,
        end,
        answer: outcome.number(),
        done: outcome.done,
        words,
        orders,
        signed,
    }
}

/// The bits of an element, as the register's name and width say.
pub fn width(letter: &str) -> usize {
    match letter {
        "n" => 4,
        "b" => 8,
        "h" => 16,
        "s" => 32,
        "d" => 64,
        _ => panic!("there is no width {letter}"),
    }
}

/// All elements of a register such as `z4.h`. A predicate must have no other
/// bits than those of its elements.
pub fn elements(machine: &Machine, name: &str, vl: u32) -> Vec<u64> {
    let (register, letter) = name.split_once('.').unwrap();
    let width = width(letter);
    let row = if register == "zt0" {
        machine.table()
    } else if let Some(k) = register.strip_prefix('z') {
        machine.vector(k.parse().unwrap(), vl)
    } else {
        let k = register.strip_prefix('p').unwrap().parse().unwrap();
        let row = machine.predicate(k, vl);
        let other = |(b, &bit): (usize, &bool)| bit && b % (width / 8) != 0;
        assert!(!row.iter().enumerate().any(other), "{name} hides a bit");
        return row
            .iter()
            .step_by(width / 8)
            .map(|&bit| bit.into())
            .collect();
    };
    (0..row.len() / width)
        .map(|index| bits::element(&row, index, width) as u64)
        .collect()
}

/// The sixteen bits of a counter register.
pub fn counter_bits(machine: &Machine, register: u32, vl: u32) -> u16 {
    Counter::in_register(&machine.predicate(register, vl)).0
}

fn set_elements(machine: &mut Machine, name: &str, values: &[&str], vl: u32) {
    let (register, letter) = name.split_once('.').unwrap();
    let width = width(letter);
    let mut list = Vec::new();
    for value in values {
        match value.split_once("..") {
            Some((from, to)) => {
                let (from, to): (u128, u128) = (from.parse().unwrap(), to.parse().unwrap());
                list.extend(from..=to);
                list.extend((to..=from).rev());
            }
            None if *value == "repeat" => {
                let count = vl as usize / width;
                list = list.iter().copied().cycle().take(count).collect();
            }
            None => {
                let value: i128 = value.parse().unwrap();
                list.push(value.rem_euclid(1 << width) as u128);
            }
        }
    }
    let number = |prefix| register.strip_prefix(prefix).unwrap().parse().unwrap();
    if register == "zt0" {
        let mut row = machine.table();
        for (index, value) in list.into_iter().enumerate() {
            bits::set_element(&mut row, index, width, value);
        }
        bits::write(&mut machine.zt0, &row);
    } else if register.starts_with('z') {
        let mut row = machine.vector(number('z'), vl);
        for (index, value) in list.into_iter().enumerate().take(row.len() / width) {
            bits::set_element(&mut row, index, width, value);
        }
        machine.set_vector(number('z'), &row);
    } else {
        let mut row = machine.predicate(number('p'), vl);
        for (index, value) in list.into_iter().enumerate() {
            row[index * width / 8] = value == 1;
        }
        machine.set_predicate(number('p'), &row);
    }
}

/// By its bits; or the least number that expands to what the words say.
fn set_counter(machine: &mut Machine, register: u32, told: &[&str], vl: u32) {
    let bits = match told {
        [bits] => u16::from_str_radix(bits.strip_prefix("0x").unwrap(), 16).unwrap(),
        [letter, rest @ ..] => {
            let (count, first) = match rest {
                ["first", count] => (count.parse().unwrap(), true),
                ["all", "but", count] => (count.parse().unwrap(), false),
                _ => panic!("the lessons have no {rest:?}"),
            };
            let stride = width(letter) / 8;
            let wanted = |(b, bit): (usize, &bool)| {
                *bit == (b % stride == 0 && (b / stride < count) == first)
            };
            let found = (1..=u16::MAX).find(|&bits| {
                bits & 15 != 0
                    && 1 << bits.trailing_zeros() == stride
                    && Counter(bits).expand(vl).iter().enumerate().all(wanted)
            });
            found.unwrap()
        }
        [] => panic!("a counter says something"),
    };
    let mut row = machine.predicate(register, vl);
    bits::set_element(&mut row, 0, 16, bits.into());
    machine.set_predicate(register, &row);
}

fn word(name: &str, fields: &[&str]) -> u32 {
    let bits = NARROW_NAMES.iter().position(|known| *known == name);
    let form = match bits {
        Some(_) => Some(Form::Narrow),
        None => Form::ALL.into_iter().find(|form| form.name() == name),
    };
    let form = form.unwrap_or_else(|| panic!("the lessons have no line {name}"));
    let order: &[&str] = match form {
        Form::Pext => &["size", "first", "portions", "counter", "pd"],
        Form::Psel => &["size", "offset", "index", "pn", "pm", "pd"],
        Form::Luti4c | Form::Luti4s => &["size", "i1", "zn", "zd"],
        Form::Narrow => &["size", "shift", "zn", "zd"],
    };
    assert_eq!(fields.len(), order.len());
    // A narrowing word's own number comes before its fields.
    let mut numbers: Vec<u32> = bits.into_iter().map(|bits| bits as u32).collect();
    for name in order {
        let field = fields.iter().find_map(|field| {
            let (given, value) = field.split_once('=')?;
            (given == *name).then(|| value.parse().unwrap())
        });
        numbers.push(field.unwrap());
    }
    numbers.resize(6, 0);
    let numbers = numbers.try_into().unwrap();
    encode(FULL, Instruction::from_fields(form, numbers)).unwrap()
}
