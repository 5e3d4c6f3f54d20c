//! One word executed on a machine.

use crate::access;
use crate::counter::Counter;
use crate::decode::decode;
use crate::instruction::Instruction;
use crate::machine::Machine;
use crate::narrow::narrow;
use crate::operations::{luti4, pext, psel};
use crate::refusal::Refusal;
use crate::setting::Setting;

/// Refuses with 1, 2, 3, then 4 or 5, 6, and then changes nothing.
pub fn step(setting: Setting, word: u32, machine: &mut Machine) -> Result<(), Refusal> {
    if !setting.is_allowed() {
        return Err(Refusal::Setting);
    }
    if !machine.has_right_lengths() {
        return Err(Refusal::FileLength);
    }
    let instruction = decode(setting, word)?;
    access::check(instruction.form(), setting, machine.flags)?;
    // Everything is read and computed before anything is written: the machine
    // is only lent for reading here.
    let results = execute(instruction, setting.vl, machine);
    for result in results {
        match result {
            Written::Vector(register, bits) => machine.set_vector(register, &bits),
            Written::Predicate(register, bits) => machine.set_predicate(register, &bits),
        }
    }
    machine.pc = machine.pc.wrapping_add(4);
    Ok(())
}

/// A register and the new low bits of it.
enum Written {
    Vector(u32, Vec<bool>),
    Predicate(u32, Vec<bool>),
}

fn execute(instruction: Instruction, vl: u32, machine: &Machine) -> Vec<Written> {
    match instruction {
        Instruction::Pext {
            size,
            first,
            portions,
            counter,
            pd,
        } => {
            let counter = Counter::in_register(&machine.predicate(counter, vl));
            let results = pext(counter, size, first, portions, vl);
            going_around(pd, results)
        }
        Instruction::Psel {
            size,
            offset,
            index,
            pn,
            pm,
            pd,
        } => {
            let (copied, chooser) = (machine.predicate(pn, vl), machine.predicate(pm, vl));
            let base = machine.index_register(index);
            let result = psel(&copied, &chooser, base, offset, size, vl);
            vec![Written::Predicate(pd, result)]
        }
        Instruction::Luti4c { size, i1, zn, zd } => {
            let results = luti4(&machine.vector(zn, vl), &machine.table(), size, i1, vl);
            spaced(zd, 1, results)
        }
        Instruction::Luti4s { size, i1, zn, zd } => {
            let results = luti4(&machine.vector(zn, vl), &machine.table(), size, i1, vl);
            spaced(zd, 4, results)
        }
        Instruction::Narrow {
            bits,
            size,
            shift,
            zn,
            zd,
        } => {
            let (source, old) = (machine.vector(zn, vl), machine.vector(zd, vl));
            let result = narrow(bits, &source, &old, size, shift, vl);
            vec![Written::Vector(zd, result)]
        }
    }
}

/// Results for P registers one after the other, P0 after P15.
fn going_around(first: u32, results: Vec<Vec<bool>>) -> Vec<Written> {
    let mut written = Vec::new();
    let mut register = first;
    for result in results {
        written.push(Written::Predicate(register, result));
        register = (register + 1) % 16;
    }
    written
}

/// Results for Z registers a fixed distance apart.
fn spaced(first: u32, distance: u32, results: Vec<Vec<bool>>) -> Vec<Written> {
    let mut written = Vec::new();
    let mut register = first;
    for result in results {
        written.push(Written::Vector(register, result));
        register += distance;
    }
    written
}
