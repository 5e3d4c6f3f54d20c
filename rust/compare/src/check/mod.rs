//! Puts a case to both programs and says where they differ.
//!
//! Every byte that the library may write is compared: the three files and the
//! record whole, buffers with what must stay in them, and a margin on both
//! sides of every file, buffer and list of fields, which nobody may touch.

mod lent;

use std::panic::{AssertUnwindSafe, catch_unwind};

use gighull::ffi;
use reference::index_unit::index_unit;
use reference::instruction::{Form, Instruction};
use reference::machine::{Machine, P_FILE_BYTES, Z_FILE_BYTES};
use reference::rearrangement::{Permission, permitted};
use reference::refusal::{Refusal, number_of};
use reference::setting::{Setting, vl_is_allowed};

use self::lent::{Lent, LentMachine};
use crate::case::{Case, IndexQuestion, Request};

/// What both answer: a number (for a register's bytes and for lines, 0), and
/// whether it comes with a yes or with bytes.
#[derive(Clone, Copy, Debug, PartialEq, Eq)]
pub struct Agreed {
    pub number: u32,
    pub yes: bool,
}

/// What both answer, or what is different, for people.
pub type Checked = Result<Agreed, String>;

fn agreed(number: u32) -> Checked {
    Ok(Agreed { number, yes: false })
}

/// A panic on either side is a difference too.
pub fn check(case: &Case) -> Checked {
    catch_unwind(AssertUnwindSafe(|| check_calmly(case))).unwrap_or_else(|payload| {
        let words = payload
            .downcast_ref::<String>()
            .map(String::as_str)
            .or_else(|| payload.downcast_ref::<&str>().copied())
            .unwrap_or("no words");
        Err(format!("panic: {words}"))
    })
}

fn check_calmly(case: &Case) -> Checked {
    match case {
        Case::Decode {
            setting,
            word,
            room,
        } => decode(*setting, *word, *room),
        Case::Encode { setting, numbers } => encode(*setting, numbers),
        Case::Step {
            setting,
            word,
            machine,
        } => step(*setting, *word, machine),
        Case::Run {
            setting,
            words,
            machine,
        } => run(*setting, words, machine),
        Case::Conflict {
            setting,
            first,
            second,
        } => conflict(*setting, *first, *second),
        Case::Permitted {
            setting,
            words,
            order,
        } => order_is_permitted(*setting, words, order),
        Case::Vector(request) => vector(request),
        Case::Predicate(request) => predicate(request),
        Case::Lines { input, room } => lines(input, *room),
        Case::Index(question) => index(*question),
    }
}

/// What stands where nothing may be written.
const MARK: u8 = 0xa5;
const WORD_MARK: u32 = 0xa5a5_a5a5;

fn same<T: PartialEq + std::fmt::Debug>(
    what: &str,
    reference: T,
    library: T,
) -> Result<(), String> {
    if reference == library {
        return Ok(());
    }
    Err(format!(
        "{what}: reference {reference:x?}, library {library:x?}"
    ))
}

fn step(setting: Setting, word: u32, machine: &Machine) -> Checked {
    let mut expected = machine.clone();
    let number = number_of(&reference::step::step(setting, word, &mut expected));
    let mut lent = LentMachine::of(machine);
    let Setting { vl, features } = setting;
    let (z, p, zt0, scalars) = lent.lend();
    let found = ffi::step(z, p, zt0, scalars, vl, features, word);
    same("answer", number, found)?;
    lent.same_as(&expected)?;
    agreed(number)
}

fn run(setting: Setting, words: &[u32], machine: &Machine) -> Checked {
    let mut expected = machine.clone();
    let outcome = reference::run::run(setting, words, &mut expected);
    let mut lent = LentMachine::of(machine);
    let mut done = usize::MAX;
    let Setting { vl, features } = setting;
    let (z, p, zt0, scalars) = lent.lend();
    let found = ffi::run(z, p, zt0, scalars, vl, features, words, &mut done);
    same(
        "answer and words done",
        (outcome.number(), outcome.done),
        (found, done),
    )?;
    lent.same_as(&expected)?;
    agreed(found)
}

/// The library's seven numbers for an instruction of the reference.
pub fn numbers(instruction: Instruction) -> [u32; ffi::FIELDS] {
    let [a, b, c, d, e, f] = instruction.fields();
    [instruction.form().number() - 1, a, b, c, d, e, f]
}

fn decode(setting: Setting, word: u32, room: usize) -> Checked {
    let answer = reference::decode::decode(setting, word);
    let number = number_of(&answer);
    let margin = 2;
    let mut expected = vec![WORD_MARK; room + 2 * margin];
    if let Ok(instruction) = answer
        && room == ffi::FIELDS
    {
        expected[margin..margin + room].copy_from_slice(&numbers(instruction));
    }
    let mut fields = vec![WORD_MARK; room + 2 * margin];
    let found = ffi::decode(
        setting.vl,
        setting.features,
        word,
        &mut fields[margin..margin + room],
    );
    same("answer", number, found)?;
    same("fields, between two marks", expected, fields)?;
    agreed(number)
}

/// What the reference writes seven numbers as. A number of no form and another
/// length are told here, as the header has them: 9, behind 1.
pub fn reference_encode(setting: Setting, numbers: &[u32]) -> Result<u32, Refusal> {
    let form = numbers
        .first()
        .and_then(|&place| Form::from_number(place.checked_add(1)?));
    match (form, numbers) {
        (Some(form), &[_, a, b, c, d, e, f]) => {
            let instruction = Instruction::from_fields(form, [a, b, c, d, e, f]);
            reference::encode::encode(setting, instruction)
        }
        _ if setting.is_allowed() => Err(Refusal::Range),
        _ => Err(Refusal::Setting),
    }
}

fn encode(setting: Setting, numbers: &[u32]) -> Checked {
    let answer = reference_encode(setting, numbers);
    let number = number_of(&answer);
    let mut word = WORD_MARK;
    let found = ffi::encode(setting.vl, setting.features, numbers, &mut word);
    same(
        "answer and word",
        (number, answer.unwrap_or(0)),
        (found, word),
    )?;
    agreed(number)
}

fn conflict(setting: Setting, first: u32, second: u32) -> Checked {
    let answer = reference::touch::conflict(setting, first, second);
    let number = number_of(&answer);
    let mut yes = WORD_MARK;
    let found = ffi::conflict(setting.vl, setting.features, first, second, &mut yes);
    same(
        "answer and yes or no",
        (number, u32::from(answer.unwrap_or(false))),
        (found, yes),
    )?;
    let yes = yes == 1;
    Ok(Agreed { number, yes })
}

fn order_is_permitted(setting: Setting, words: &[u32], order: &[u32]) -> Checked {
    let positions: Vec<usize> = order.iter().map(|&position| position as usize).collect();
    let (number, expected) = match permitted(setting, words, &positions) {
        Permission::Permitted => (0, 1),
        Permission::NoRearrangement | Permission::Swapped(..) => (0, 0),
        Permission::Refused(refusal) => (refusal.number(), 0),
    };
    let mut yes = WORD_MARK;
    let found = ffi::permitted(setting.vl, setting.features, words, order, &mut yes);
    same("answer and yes or no", (number, expected), (found, yes))?;
    let yes = yes == 1;
    Ok(Agreed { number, yes })
}

type Copier = fn(&[u8], u32, u32, &mut [u8]) -> usize;

/// The reference has no such question, but registers as rows of bits: the part
/// is theirs where the question is not refused, and empty else.
fn vector(request: &Request) -> Checked {
    let asked = request.file.len() == Z_FILE_BYTES && request.register < 32;
    let part = (asked && vl_is_allowed(request.vl)).then(|| {
        let mut machine = Machine::zero();
        machine.z.clone_from(&request.file);
        machine.vector(request.register, request.vl)
    });
    copied(request, part, ffi::vector)
}

fn predicate(request: &Request) -> Checked {
    let asked = request.file.len() == P_FILE_BYTES && request.register < 16;
    let part = (asked && vl_is_allowed(request.vl)).then(|| {
        let mut machine = Machine::zero();
        machine.p.clone_from(&request.file);
        machine.predicate(request.register, request.vl)
    });
    copied(request, part, ffi::predicate)
}

fn copied(request: &Request, part: Option<Vec<bool>>, copier: Copier) -> Checked {
    let part = part.unwrap_or_default();
    let mut bytes = vec![0; part.len() / 8];
    reference::bits::write(&mut bytes, &part);
    let mut expected = vec![MARK; request.room];
    let count = if bytes.len() <= request.room {
        expected[..bytes.len()].copy_from_slice(&bytes);
        bytes.len()
    } else {
        0
    };
    let mut out = Lent::of(&vec![MARK; request.room], 0);
    let found = copier(&request.file, request.vl, request.register, out.lend());
    same("bytes copied", count, found)?;
    out.same_as(&expected, "buffer ", usize::MAX)?;
    let yes = count > 0;
    Ok(Agreed { number: 0, yes })
}

/// The most bytes of a line.
const LINE: usize = 19;

fn lines(input: &[u8], room: usize) -> Checked {
    // As many records as there is surely room for, bytes left over counted as
    // one.
    let read = input.len().min(4 * (room / LINE));
    let text = reference::lister::list(&input[..read]);
    let mut expected = vec![MARK; room];
    expected[..text.len()].copy_from_slice(&text);
    let mut out = Lent::of(&vec![MARK; room], 0);
    let mut written = usize::MAX;
    let found = ffi::lines(input, out.lend(), &mut written);
    same(
        "bytes read and written",
        (read, text.len()),
        (found, written),
    )?;
    out.same_as(&expected, "text ", usize::MAX)?;
    let yes = written > 0;
    Ok(Agreed { number: 0, yes })
}

fn index(question: IndexQuestion) -> Checked {
    let IndexQuestion {
        vl,
        size,
        offset,
        w,
    } = question;
    let answer = index_unit(vl, size, offset, w);
    let number = number_of(&answer);
    let expected = answer.map_or([0; 3], |unit| [unit.sum, unit.mask, unit.index]);
    let mut lent = [WORD_MARK; 7];
    let [_, sum, _, mask, _, index, _] = &mut lent;
    let found = ffi::psel_index(vl, size, offset, w, sum, mask, index);
    let [a, sum, b, mask, c, index, d] = lent;
    same(
        "answer and sum, mask, index",
        (number, expected),
        (found, [sum, mask, index]),
    )?;
    same("marks beside them", [WORD_MARK; 4], [a, b, c, d])?;
    agreed(number)
}
