//! What `gighull run` prints, held to the reference line by line.

use std::collections::BTreeMap;

use super::by_reference::{Lesson, counter_bits};
use reference::counter::Counter;
use reference::decode::decode;
use reference::index_unit::{IndexUnit, index_unit};
use reference::instruction::Instruction;
use reference::machine::Machine;
use reference::rearrangement::{Permission, permitted};
use reference::run::run;
use reference::setting::Setting;
use reference::step::step;

/// How much was compared, so that a test can see that it was not nothing.
#[derive(Default, Debug)]
pub struct Compared {
    pub registers: usize,
    pub counters: usize,
    pub steps: usize,
    /// PSEL's index lines.
    pub indexes: usize,
    pub orders: usize,
}

/// The two machines that the lines to come are about, and the registers told.
struct Pair {
    first: Machine,
    second: Machine,
    /// How many words were done on the way.
    words: usize,
    told: BTreeMap<String, Vec<Side>>,
}

struct Side {
    name: String,
    values: Vec<i128>,
    /// It is told as `all 7`.
    all: bool,
}

/// Every number of the text must be the reference's, and every register that
/// differs there must be told.
pub fn compare(text: &str, lesson: &Lesson) -> Compared {
    let vl = lesson.setting.vl;
    let mut compared = Compared::default();
    let mut pair: Option<Pair> = None;
    let mut stepped = lesson.start.clone();
    let mut orders = lesson.orders.iter();
    let mut register = String::new();
    let mut lines = text.lines();
    let count = lesson.words.len();
    while let Some(line) = lines.next() {
        let tokens: Vec<&str> = line.split_whitespace().collect();
        match tokens.as_slice() {
            [] | ["lesson", _] | ["no", "register", "changed"] => {}
            ["setting", "VL", length, ..] => assert_eq!(*length, format!("{vl};")),
            ["word", place, "line", _, word, ..] => {
                finish(pair.take(), lesson, &mut compared);
                let place: usize = place.trim_end_matches(',').parse().unwrap();
                assert_eq!(place, compared.steps);
                assert_eq!(*word, format!("{:08x}", lesson.words[place]));
                pair = Some(one_step(&mut lines, &mut stepped, lesson, &mut compared));
            }
            ["index", ..] => panic!("no PSEL word has this line: {line}"),
            ["answer", "0:", "done"] => {
                finish(pair.take(), lesson, &mut compared);
                assert_eq!(lesson.answer, 0);
            }
            ["words", done, "of", all, "done"] => {
                assert_eq!([*done, *all], [lesson.done, count].map(|n| n.to_string()));
                pair = Some(Pair::new(lesson.start.clone(), lesson.end.clone(), count));
            }
            ["pc", from, "->", to] => {
                let pcs = [lesson.start.pc, lesson.end.pc].map(|pc| format!("{pc:#x}"));
                assert_eq!([*from, *to], pcs);
            }
            ["order", ..] => {
                finish(pair.take(), lesson, &mut compared);
                let order = orders.next().expect("the lesson has no more orders");
                pair = ordered(line, &mut lines, order, lesson);
                compared.orders += 1;
            }
            [name, "unchanged", bits, words @ ..] if name.starts_with("pn") => {
                let k = name[2..].parse().unwrap();
                counter(&lesson.start, k, vl, bits, words);
                counter(&lesson.end, k, vl, bits, words);
                compared.counters += 1;
            }
            [first, rest @ ..] => {
                let starts = !line.starts_with(' ');
                if starts {
                    register = first.to_string();
                }
                let rest = if starts { rest } else { &tokens };
                pair.as_mut()
                    .expect("a register has its part")
                    .line(&register, rest);
            }
        }
    }
    finish(pair, lesson, &mut compared);
    assert!(orders.next().is_none(), "an order is not told");
    compared
}

impl Pair {
    fn new(first: Machine, second: Machine, words: usize) -> Pair {
        let told = BTreeMap::new();
        Pair {
            first,
            second,
            words,
            told,
        }
    }

    /// `before all 0`, `after 0: 1 2 3`, or a further row `8: 4 5`.
    fn line(&mut self, register: &str, tokens: &[&str]) {
        let is_start = |token: &&str| *token == "all" || token.ends_with(':');
        let start = tokens.iter().position(is_start);
        let start = start.unwrap_or_else(|| panic!("{register}: {tokens:?}"));
        let name = tokens[..start].join(" ");
        let sides = self.told.entry(register.to_string()).or_default();
        if !name.is_empty() {
            sides.push(Side {
                name,
                values: Vec::new(),
                all: tokens[start] == "all",
            });
        }
        let side = sides.last_mut().unwrap();
        if !side.all {
            let index: usize = tokens[start].trim_end_matches(':').parse().unwrap();
            assert_eq!(index, side.values.len());
        }
        for cell in &tokens[start + 1..] {
            if register.starts_with('p') {
                let truths = cell.chars().map(|truth| truth.to_digit(2).unwrap());
                side.values.extend(truths.map(i128::from));
            } else {
                side.values.push(cell.parse().unwrap());
            }
        }
    }
}

/// A word's lines above its registers: its answer, PC, and the index of a PSEL word.
fn one_step<'a>(
    lines: &mut impl Iterator<Item = &'a str>,
    machine: &mut Machine,
    lesson: &Lesson,
    compared: &mut Compared,
) -> Pair {
    let word = lesson.words[compared.steps];
    let first = machine.clone();
    step(lesson.setting, word, machine).unwrap();
    let (from, to) = (first.pc, machine.pc);
    let answer = format!("answer   0: done; pc {from:#x} -> {to:#x}");
    assert_eq!(lines.next(), Some(&*answer));
    if let Some(index) = index_line(lesson.setting, word, &first) {
        assert_eq!(lines.next(), Some(&*index));
        compared.indexes += 1;
    }
    compared.steps += 1;
    Pair::new(first, machine.clone(), compared.steps)
}

/// What is said of a PSEL word's index, by the machine before the word.
fn index_line(setting: Setting, word: u32, before: &Machine) -> Option<String> {
    let Ok(Instruction::Psel {
        size,
        offset,
        index: register,
        pm,
        ..
    }) = decode(setting, word)
    else {
        return None;
    };
    let w = before.w[register as usize - 12];
    let IndexUnit { sum, mask, index } = index_unit(setting.vl, size, offset, w).unwrap();
    let carry = (u64::from(w) + u64::from(offset)) >> 32;
    let wrapped = ["", ", wrapped"][carry as usize];
    let letter = ["b", "h", "s", "d"][size.ilog2() as usize - 3];
    let truth = before.predicate(pm, setting.vl)[(index * size / 8) as usize];
    Some(format!(
        "index    w{register} 0x{w:08x} + offset {offset} = sum 0x{sum:08x}{wrapped}; \
         sum AND mask 0x{mask:08x} = index {index}; p{pm}.{letter} element {index} is {}",
        u8::from(truth)
    ))
}

/// What was told of two machines is right, and is all.
fn finish(pair: Option<Pair>, lesson: &Lesson, compared: &mut Compared) {
    let vl = lesson.setting.vl;
    let Some(Pair {
        first,
        second,
        words,
        told,
    }) = pair
    else {
        return;
    };
    for (register, sides) in &told {
        let [was, is] = [&first, &second].map(|machine| lesson.numbers(machine, register, words));
        let names: Vec<&str> = sides.iter().map(|side| &*side.name).collect();
        let expected: Vec<&Vec<i128>> = match names.as_slice() {
            ["unchanged"] => {
                assert_eq!(was, is);
                vec![&is]
            }
            ["before", "after"] | ["lesson", "this order"] => {
                assert_ne!(was, is);
                vec![&was, &is]
            }
            _ => panic!("{register} has {names:?}"),
        };
        for (side, expected) in sides.iter().zip(expected) {
            let values = if side.all {
                vec![side.values[0]; expected.len()]
            } else {
                side.values.clone()
            };
            assert_eq!(&values, expected, "{register} {}", side.name);
        }
        compared.registers += 1;
    }
    let is_told = |name: String| {
        told.keys()
            .any(|told| told.starts_with(&format!("{name}.")))
    };
    for k in 0..32 {
        let differs = first.vector(k, vl) != second.vector(k, vl);
        assert!(!differs || is_told(format!("z{k}")), "z{k} is not told");
    }
    for k in 0..16 {
        let differs = first.predicate(k, vl) != second.predicate(k, vl);
        assert!(!differs || is_told(format!("p{k}")), "p{k} is not told");
    }
    assert_eq!(first.zt0, second.zt0);
    assert_eq!(first.w, second.w);
}

/// An order's lines: what the reference permits, and how its run ends.
fn ordered<'a>(
    title: &str,
    lines: &mut impl Iterator<Item = &'a str>,
    order: &[usize],
    lesson: &Lesson,
) -> Option<Pair> {
    let numbers: Vec<String> = order.iter().map(usize::to_string).collect();
    assert!(title.starts_with(&format!("order {}, line ", numbers.join(" "))));
    let verdict = lines.next().unwrap();
    let permission = permitted(lesson.setting, &lesson.words, order);
    match permission {
        Permission::Permitted => assert_eq!(verdict, "permitted"),
        Permission::Swapped(early, late) => {
            assert!(verdict.starts_with("forbidden: "), "{verdict}");
            assert!(verdict.contains(&format!("word {early} ")), "{verdict}");
            let end = format!("word {late} comes first now");
            assert!(verdict.ends_with(&end), "{verdict}");
        }
        other => panic!("the lessons have no {other:?}"),
    }
    let words: Vec<u32> = order
        .iter()
        .map(|&position| lesson.words[position])
        .collect();
    let mut end = lesson.start.clone();
    let outcome = run(lesson.setting, &words, &mut end);
    assert_eq!(outcome.number(), 0);
    let answer = format!(
        "answer 0: done, {} of {} words done",
        outcome.done,
        words.len()
    );
    assert!(lines.next().unwrap().ends_with(&answer));
    let ended = lines.next().unwrap();
    if end == lesson.end {
        assert!(ended.starts_with("both ended alike"), "{ended}");
        return None;
    }
    assert_ne!(permission, Permission::Permitted);
    assert_eq!(ended, "it ended differently:");
    Some(Pair::new(lesson.end.clone(), end, words.len()))
}

/// `0x0027: the first 19 of 64 elements .b`
fn counter(machine: &Machine, k: u32, vl: u32, bits: &str, words: &[&str]) {
    let expected = counter_bits(machine, k, vl);
    assert_eq!(bits, format!("{expected:#06x}:"));
    let stride = 1 << expected.trailing_zeros().min(3);
    let mask = Counter(expected).expand(vl);
    let truths: Vec<bool> = mask.into_iter().step_by(stride).collect();
    let count = truths.iter().filter(|&&truth| truth).count();
    let all = truths.len();
    let told = match (count, truths[0]) {
        (0, _) => format!("none of {all}"),
        _ if count == all => format!("all of {all}"),
        (_, true) => format!("the first {count} of {all}"),
        (_, false) => format!("all but the first {} of {all}", all - count),
    };
    assert!(words.join(" ").starts_with(&told), "{words:?}: {told}");
}
