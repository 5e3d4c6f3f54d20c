//! `faults [NAME..]`
//!
//! Puts deliberate faults, one at a time, into a copy of the reference below
//! rust/target/faults, builds `compare` over that copy and the same library,
//! and runs `compare gate`, which must find each. What it prints as a case must
//! differ again with the faulty reference and not with the sound one. A copy
//! without a fault goes first, and must not differ.
//!
//! Prints a table in Markdown; status 1 where a fault was not found.

use std::fs;
use std::io;
use std::path::{Path, PathBuf};
use std::process::{Command, ExitCode, Output};
use std::time::Instant;

use gighull::ffi;

struct Fault {
    name: &'static str,
    /// What the faulty reference does.
    does: &'static str,
    /// From the reference's sources.
    file: &'static str,
    sound: &'static str,
    faulty: &'static str,
}

const FAULTS: &[Fault] = &[
    Fault {
        name: "wrapping-sum",
        does: "UQRSHRN's and RSHRN's sum wraps at the wide element (ruled out by name)",
        file: "narrow.rs",
        sound: "sum += 1 << (shift - 1);",
        faulty: "sum += 1 << (shift - 1);
        sum = if kind.u { sum % (1 << (2 * size)) } else { sum };",
    },
    Fault {
        name: "no-sign",
        does: "SQSHRN and SQRSHRN read their elements without a sign",
        file: "narrow.rs",
        sound: "let mut sum = if kind.u {",
        faulty: "let mut sum = if kind.u || kind.op {",
    },
    Fault {
        name: "towards-zero",
        does: "a negative element is divided towards 0",
        file: "narrow.rs",
        sound: "let quotient = sum.div_euclid(1 << shift);",
        faulty: "let quotient = sum / (1 << shift);",
    },
    Fault {
        name: "no-rounding",
        does: "a T word does not round",
        file: "narrow.rs",
        sound: "if kind.r {",
        faulty: "if kind.r && !kind.t {",
    },
    Fault {
        name: "ties-down",
        does: "the rounding term is one too small, so that a tie goes down",
        file: "narrow.rs",
        sound: "sum += 1 << (shift - 1);",
        faulty: "sum += (1 << (shift - 1)) - 1;",
    },
    Fault {
        name: "signed-maximum",
        does: "the greatest signed result is one too great, and becomes the least",
        file: "narrow.rs",
        sound: "quotient.clamp(-values / 2, values / 2 - 1)",
        faulty: "quotient.clamp(-values / 2, values / 2)",
    },
    Fault {
        name: "signed-minimum",
        does: "the least signed result is one too great",
        file: "narrow.rs",
        sound: "quotient.clamp(-values / 2, values / 2 - 1)",
        faulty: "quotient.clamp(-values / 2 + 1, values / 2 - 1)",
    },
    Fault {
        name: "low-half-cut",
        does: "SHRN and RSHRN cut, where they keep the low half",
        file: "narrow.rs",
        sound: "(false, true) => quotient,",
        faulty: "(false, true) => quotient.clamp(0, values - 1),",
    },
    Fault {
        name: "even-cleared",
        does: "a T word clears the even elements, as if Zd were not read",
        file: "narrow.rs",
        sound: "old.to_vec()",
        faulty: "vec![false; old.len()]",
    },
    Fault {
        name: "even-of-source",
        does: "a T word takes the even elements of Zn, where those of Zd stay",
        file: "narrow.rs",
        sound: "old.to_vec()",
        faulty: "source[..old.len()].to_vec()",
    },
    Fault {
        name: "one-name",
        does: "UQRSHRNT is listed as UQRSHRNB",
        file: "instruction.rs",
        sound: "\"UQRSHRNT\",",
        faulty: "\"UQRSHRNB\",",
    },
    Fault {
        name: "counter-size",
        does: "the counter is expanded at the instruction's size (ruled out by name)",
        file: "operations.rs",
        sound: "let mask = counter.expand(vl);",
        faulty: "let mask = counter.expand(vl);
    let (own, step) = (1 << counter.0.trailing_zeros().min(3), size as usize / 8);
    let at = |b: usize| b % step == 0 && mask.get(b / step * own) == Some(&true);
    let mask: Vec<bool> = (0..mask.len()).map(at).collect();",
    },
    Fault {
        name: "write-then-read",
        does: "LUTI4C writes a destination before it reads the next indexes (ruled out by name)",
        file: "step.rs",
        sound: "let results = luti4(&machine.vector(zn, vl), &machine.table(), size, i1, vl);
            spaced(zd, 1, results)",
        faulty: "let mut machine = machine.clone();
            let mut results = Vec::new();
            for r in 0..4 {
                let all = luti4(&machine.vector(zn, vl), &machine.table(), size, i1, vl);
                machine.set_vector(zd + r, &all[r as usize]);
                results.push(all[r as usize].clone());
            }
            spaced(zd, 1, results)",
    },
    Fault {
        name: "looser-match",
        does: "LUTI4S is also read with sizes 10 and 11 (a looser match, ruled out by name)",
        file: "layout.rs",
        sound: "Row::Luti4s => word & 0x3000 == 0x1000,",
        faulty: "Row::Luti4s => word & 0x3000 != 0,",
    },
    Fault {
        name: "pair-stays",
        does: "PEXT of two portions with Pd 15 writes P15 twice, and not P0",
        file: "step.rs",
        sound: "register = (register + 1) % 16;",
        faulty: "register = (register + 1).min(15);",
    },
    Fault {
        name: "one-written",
        does: "PEXT of two portions writes one register",
        file: "step.rs",
        sound: "let results = pext(counter, size, first, portions, vl);",
        faulty: "let results = pext(counter, size, first, portions.min(1), vl);",
    },
    Fault {
        name: "second-is-first",
        does: "the second of PEXT's portions is the first again",
        file: "operations.rs",
        sound: "portion_of(&mask, size, first + k, vl)",
        faulty: "portion_of(&mask, size, first + k / 2, vl)",
    },
    Fault {
        name: "first-is-i1",
        does: "of PEXT2's layout the first portion is read as i1, not twice i1",
        file: "decode.rs",
        sound: "Row::Pext2 => read_pext(word, 2 * bits(word, 8, 1), 2),",
        faulty: "Row::Pext2 => read_pext(word, bits(word, 8, 1), 2),",
    },
    Fault {
        name: "layouts-exchanged",
        does: "encode writes one portion by PEXT2's layout and two by PEXT1's",
        file: "encode.rs",
        sound: "let row = instruction.row();",
        faulty: "let row = match instruction.row() {
        layout::Row::Pext1 => layout::Row::Pext2,
        layout::Row::Pext2 => layout::Row::Pext1,
        row => row,
    };",
    },
    Fault {
        name: "odd-pair",
        does: "encode takes an odd first portion with two of them",
        file: "encode.rs",
        sound: "let odd_pair = portions == 2 && first % 2 == 1;",
        faulty: "let odd_pair = portions == 2 && first > 3;",
    },
    Fault {
        name: "three-portions",
        does: "encode takes three portions",
        file: "encode.rs",
        sound: "(portions == 1 || portions == 2)",
        faulty: "(1..=3).contains(&portions)",
    },
    Fault {
        name: "no-portion",
        does: "encode takes no portion at all",
        file: "encode.rs",
        sound: "(portions == 1 || portions == 2)",
        faulty: "portions <= 2",
    },
    Fault {
        name: "first-4",
        does: "encode takes 4 as a first portion",
        file: "encode.rs",
        sound: "first <= 3",
        faulty: "first <= 4",
    },
    Fault {
        name: "portions-cast",
        does: "the number of portions loses its bits from 8 up, so that 257 is 1",
        file: "encode.rs",
        sound: "let odd_pair =",
        faulty: "let portions = portions % 256;
    let odd_pair =",
    },
    Fault {
        name: "form-0-again",
        does: "form 0 is still read, by PEXT's fields",
        file: "instruction.rs",
        sound: "Form::ALL.into_iter().find(|form| form.number() == number)",
        faulty: "let number = if number == 1 { 8 } else { number };
        Form::ALL.into_iter().find(|form| form.number() == number)",
    },
    Fault {
        name: "form-0-as-before",
        does: "form 0 is still read as PEXT1 (the reference's lists are read in the check)",
        file: "../../rust/compare/src/check/mod.rs",
        sound: "match (form, numbers) {",
        faulty: "match (form, numbers) {
        (None, &[0, size, imm2, counter, pd, _, _]) => {
            let pext = Instruction::from_fields(Form::Pext, [size, imm2, 1, counter, pd, 0]);
            reference::encode::encode(setting, pext)
        }",
    },
    Fault {
        name: "index-of-128",
        does: "PSEL's index is taken modulo 128/size at every VL",
        file: "index_unit.rs",
        sound: "% u64::from(vl / size)",
        faulty: "% u64::from(128 / size)",
    },
    Fault {
        name: "sum-stops",
        does: "the sum of PSEL's index stops at 2^32 - 1",
        file: "index_unit.rs",
        sound: "(whole_sum(offset, w) % u64::from(",
        faulty: "(u64::from(w.saturating_add(offset)) % u64::from(",
    },
    Fault {
        name: "registers-exchanged",
        does: "PSEL copies Pm, by the element of Pn",
        file: "step.rs",
        sound: "let (copied, chooser) =",
        faulty: "let (chooser, copied) =",
    },
    Fault {
        name: "elements-alone",
        does: "PSEL copies only the bits of elements of its size",
        file: "operations.rs",
        sound: "result.push(chosen && bit);",
        faulty: "let is_element = result.len() % (size as usize / 8) == 0;
        result.push(chosen && bit && is_element);",
    },
    Fault {
        name: "false-keeps",
        does: "PSEL leaves Pd as it was where the element is false",
        file: "step.rs",
        sound: "let result = psel(&copied, &chooser, base, offset, size, vl);",
        faulty: "let chosen = psel(&[true], &chooser, base, offset, size, vl)[0];
            let result = if chosen { copied } else { machine.predicate(pd, vl) };",
    },
    Fault {
        name: "sme-alone",
        does: "PSEL asks for SME, and SVE2p1 does not do",
        file: "layout.rs",
        sound: "Row::Psel => setting.has(SME) || setting.has(SVE2P1),",
        faulty: "Row::Psel => setting.has(SME),",
    },
    Fault {
        name: "sve2-will-do",
        does: "PSEL is also read with SVE2 alone",
        file: "layout.rs",
        sound: "Row::Psel => setting.has(SME) || setting.has(SVE2P1),",
        faulty: "Row::Psel => setting.has(SME) || setting.has(SVE2),",
    },
    Fault {
        name: "upper-bits",
        does: "the bits of a Z slot above VL become 0",
        file: "machine.rs",
        sound: "bits::write(&mut self.z[slot..slot + Z_SLOT_BYTES], value);",
        faulty: "self.z[slot..slot + Z_SLOT_BYTES].fill(0);
        bits::write(&mut self.z[slot..slot + Z_SLOT_BYTES], value);",
    },
    Fault {
        name: "pc-stops",
        does: "PC does not wrap, but stops at 2^64 - 1",
        file: "step.rs",
        sound: "machine.pc.wrapping_add(4)",
        faulty: "machine.pc.saturating_add(4)",
    },
    Fault {
        name: "table-first",
        does: "LUTI4 asks for T before S",
        file: "access.rs",
        sound: "if needed.s && !flags.s {",
        faulty: "if needed.t && !flags.t {
        return Err(Refusal::TableClosed);
    }
    if needed.s && !flags.s {",
    },
    Fault {
        name: "feature-before-range",
        does: "encode answers 3 before 9",
        file: "encode.rs",
        sound: "if !in_range(instruction) {",
        faulty: "if !layout::has_features(instruction.row(), setting) {
        return Err(Refusal::Undefined);
    }
    if !in_range(instruction) {",
    },
    Fault {
        name: "feature-cast",
        does: "a feature number loses its bits from 8 up, so that 287 is 31",
        file: "setting.rs",
        sound: "if features > ALL_FEATURES {",
        faulty: "let features = features % 256;
    if features > ALL_FEATURES {",
    },
    Fault {
        name: "half-a-register",
        does: "of a Z register at VL 2048 only 128 bytes are read",
        file: "machine.rs",
        sound: "bits::read(&self.z[slot..slot + Z_SLOT_BYTES], vl as usize)",
        faulty: "bits::read(&self.z[slot..slot + Z_SLOT_BYTES], (vl as usize).min(1024))",
    },
    Fault {
        name: "one-byte-over",
        does: "the lister forgets a single byte left over",
        file: "lister.rs",
        sound: "if left_over > 0 {",
        faulty: "if left_over > 1 {",
    },
    Fault {
        name: "longest-255",
        does: "a run refuses 256 words",
        file: "run.rs",
        sound: "if words.len() > LONGEST_STRETCH {",
        faulty: "if words.len() >= LONGEST_STRETCH {",
    },
    Fault {
        name: "refused-is-done",
        does: "a run counts the refused word as done",
        file: "run.rs",
        sound: "let refusal = Some(refusal);",
        faulty: "let (refusal, done) = (Some(refusal), done + 1);",
    },
    Fault {
        name: "one-of-the-pair",
        does: "conflict forgets the second register that PEXT writes",
        file: "touch.rs",
        sound: "writes: (0..portions).map(",
        faulty: "writes: (0..portions.min(1)).map(",
    },
    Fault {
        name: "element-unread",
        does: "conflict forgets that PSEL reads Pm",
        file: "touch.rs",
        sound: "reads: vec![P(pn), P(pm), W(index)],",
        faulty: "reads: vec![P(pn), W(index)],",
    },
    Fault {
        name: "readers-conflict",
        does: "two words that read ZT0 conflict",
        file: "touch.rs",
        sound: "meets(a, b) || meets(b, a)",
        faulty: "meets(a, b)
        || meets(b, a)
        || a.reads.contains(&Register::Zt0) && b.reads.contains(&Register::Zt0)",
    },
    Fault {
        name: "copies-change-places",
        does: "an order may let two copies of a word change places",
        file: "rearrangement.rs",
        sound: "if earlier < later && touches_conflict",
        faulty: "if words[earlier] != words[later]
                && earlier < later
                && touches_conflict",
    },
    Fault {
        name: "mask-too-long",
        does: "the mask of the index unit has one bit more",
        file: "index_unit.rs",
        sound: "mask: vl / size - 1,",
        faulty: "mask: 2 * (vl / size) - 1,",
    },
    Fault {
        name: "mask-too-short",
        does: "the mask of the index unit has one bit less",
        file: "index_unit.rs",
        sound: "mask: vl / size - 1,",
        faulty: "mask: vl / size / 2 - 1,",
    },
    Fault {
        name: "adder-stops",
        does: "the adder of the index unit stops at 2^32 - 1",
        file: "index_unit.rs",
        sound: "sum: (whole_sum(offset, w) % (1 << 32)) as u32,",
        faulty: "sum: w.saturating_add(offset),",
    },
    Fault {
        name: "offset-left-out",
        does: "the adder of the index unit does not add the offset",
        file: "index_unit.rs",
        sound: "sum: (whole_sum(offset, w) % (1 << 32)) as u32,",
        faulty: "sum: w,",
    },
    Fault {
        name: "any-offset",
        does: "the index unit takes an offset that no word has",
        file: "index_unit.rs",
        sound: "if !psel_offset_in_range(size, offset) {",
        faulty: "if !psel_offset_in_range(size, 0) {",
    },
    Fault {
        name: "range-before-length",
        does: "the index unit answers 9 before 1",
        file: "index_unit.rs",
        sound: "if !vl_is_allowed(vl) {",
        faulty: "if !psel_offset_in_range(size, offset) {
        return Err(Refusal::Range);
    }
    if !vl_is_allowed(vl) {",
    },
];

fn main() -> ExitCode {
    let names: Vec<String> = std::env::args().skip(1).collect();
    if let Some(name) = names
        .iter()
        .find(|&name| FAULTS.iter().all(|fault| fault.name != name))
    {
        eprintln!("faults: {name} is none; there are");
        for fault in FAULTS {
            eprintln!("  {:<22} {}", fault.name, fault.does);
        }
        return ExitCode::from(2);
    }
    match all(&names) {
        Ok(0) => ExitCode::SUCCESS,
        Ok(missed) => {
            eprintln!("faults: {missed} not found");
            ExitCode::FAILURE
        }
        Err(error) => {
            eprintln!("faults: {error}");
            ExitCode::from(2)
        }
    }
}

/// How many faults were not found.
fn all(names: &[String]) -> io::Result<usize> {
    let bench = Bench::new()?;
    let from = Instant::now();
    eprintln!("faults: no fault");
    bench.build()?;
    let gate = bench.compare(&["gate"])?;
    if !gate.status.success() {
        let text = String::from_utf8_lossy(&gate.stdout).into_owned();
        return Err(io::Error::other(format!(
            "without a fault there is a difference:\n{text}"
        )));
    }
    println!("| Fault | The faulty reference | Found by | Difference | Smallest case |");
    println!("|---|---|---|---|---|");
    let (mut found, mut missed) = (0, 0);
    for fault in FAULTS {
        if !names.is_empty() && names.iter().all(|name| fault.name != name) {
            continue;
        }
        let seconds = from.elapsed().as_secs();
        eprintln!("faults: {} ({seconds} s so far)", fault.name);
        let row = bench.with(fault, |bench| bench.look_for_it())?;
        match row {
            Ok(row) => {
                found += 1;
                println!("| {} | {} | {row} |", fault.name, fault.does);
            }
            Err(why) => {
                missed += 1;
                println!("| {} | {} | NOT FOUND: {why} | | |", fault.name, fault.does);
            }
        }
    }
    println!("\n{found} faults found, {missed} not found.");
    Ok(missed)
}

/// The copy: reference, gighull and compare, in the places that they have to
/// each other in the repository.
struct Bench {
    folder: PathBuf,
    binary: PathBuf,
}

impl Bench {
    fn new() -> io::Result<Bench> {
        let root = Path::new(env!("CARGO_MANIFEST_DIR")).join("../..");
        let folder = root.join("rust/target/faults");
        for part in ["reference", "rust/gighull", "rust/compare"] {
            let copy = folder.join(part);
            if copy.exists() {
                fs::remove_dir_all(&copy)?;
            }
            copy_folder(&root.join(part), &copy)?;
        }
        let workspace = "[workspace]\nmembers = [\"compare\", \"gighull\"]\nresolver = \"3\"\n";
        fs::write(folder.join("rust/Cargo.toml"), workspace)?;
        let folder = folder.canonicalize()?;
        let binary = folder.join("target/release/compare");
        Ok(Bench { folder, binary })
    }

    fn build(&self) -> io::Result<()> {
        let library = Path::new(ffi::ARCHIVE).parent().expect("it is in a folder");
        let output = Command::new(std::env::var_os("CARGO").unwrap_or("cargo".into()))
            .args(["build", "--release", "--offline", "--quiet"])
            .args(["--package", "compare", "--bin", "compare"])
            .current_dir(self.folder.join("rust"))
            .env("CARGO_TARGET_DIR", self.folder.join("target"))
            .env("GIGHULL_STATICLIB", library)
            .output()?;
        if output.status.success() {
            return Ok(());
        }
        let errors = String::from_utf8_lossy(&output.stderr).into_owned();
        Err(io::Error::other(format!(
            "the copy does not build\n{errors}"
        )))
    }

    fn compare(&self, arguments: &[&str]) -> io::Result<Output> {
        Command::new(&self.binary).args(arguments).output()
    }

    /// Does something while the fault is in the copy.
    fn with<T>(&self, fault: &Fault, act: impl FnOnce(&Bench) -> io::Result<T>) -> io::Result<T> {
        let path = self.folder.join("reference/src").join(fault.file);
        let sound = fs::read_to_string(&path)?;
        if sound.matches(fault.sound).count() != 1 {
            return Err(io::Error::other(format!(
                "{}: {:?} is not once in {}",
                fault.name, fault.sound, fault.file
            )));
        }
        fs::write(&path, sound.replace(fault.sound, fault.faulty))?;
        let done = self.build().and_then(|()| act(self));
        fs::write(&path, sound)?;
        done
    }

    /// The table's last three cells, or why it is not found.
    fn look_for_it(&self) -> io::Result<Result<String, String>> {
        let gate = self.compare(&["gate"])?;
        let text = String::from_utf8_lossy(&gate.stdout).into_owned();
        if gate.status.code() != Some(1) {
            return Ok(Err(format!("compare gate ended with {}", gate.status)));
        }
        let lines: Vec<&str> = text.lines().collect();
        let at = lines.iter().position(|line| line.ends_with(": DIFFERENCE"));
        let Some([by, _, _, difference, _, replay]) = at.and_then(|at| lines.get(at..at + 6))
        else {
            return Ok(Err(format!("unexpected text {text:?}")));
        };
        let case = replay
            .trim()
            .trim_start_matches("compare replay '")
            .trim_end_matches('\'');
        let again = self.compare(&["replay", case])?;
        if again.status.code() != Some(1) {
            return Ok(Err(format!("replayed, it does not differ: {case}")));
        }
        let sound = std::env::current_exe()?.with_file_name("compare");
        let sound = Command::new(sound).args(["replay", case]).output()?;
        if !sound.status.success() {
            return Ok(Err(format!("the sound reference differs too: {case}")));
        }
        Ok(Ok(format!(
            "{} | {} | `{case}`",
            by.trim_end_matches(": DIFFERENCE"),
            difference.trim()
        )))
    }
}

/// Without what was built.
fn copy_folder(from: &Path, to: &Path) -> io::Result<()> {
    fs::create_dir_all(to)?;
    for entry in fs::read_dir(from)? {
        let entry = entry?;
        let name = entry.file_name();
        if name == "target" {
            continue;
        }
        if entry.file_type()?.is_dir() {
            copy_folder(&entry.path(), &to.join(name))?;
        } else {
            fs::copy(entry.path(), to.join(name))?;
        }
    }
    Ok(())
}
