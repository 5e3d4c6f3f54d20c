//! include/gighull.h, this crate's declarations and the library, one beside the
//! other: the same calls from C and from Rust give the same, and the three have
//! the same functions.

use std::collections::BTreeSet;
use std::fmt::Write;
use std::fs;
use std::mem::{align_of, offset_of, size_of};
use std::path::Path;
use std::process::Command;

use gighull::{Form, INTERFACE_VERSION, Narrowing, Scalars, ffi};

const HEADERS: &str = concat!(env!("CARGO_MANIFEST_DIR"), "/../../include");
const PROGRAM: &str = concat!(env!("CARGO_MANIFEST_DIR"), "/tests/header.c");

/// What tests/header.c prints, compiled and linked by a C compiler.
fn said_by_c() -> String {
    let binary = Path::new(env!("CARGO_TARGET_TMPDIR")).join("header");
    let mut compiler = Command::new("cc");
    compiler
        .args(["-std=c11", "-Wall", "-Wextra", "-Werror", "-O1", "-I"])
        .arg(HEADERS)
        .arg(PROGRAM)
        .arg(ffi::ARCHIVE)
        .arg("-o")
        .arg(&binary);
    let output = compiler.output().expect("a C compiler is there");
    let errors = String::from_utf8_lossy(&output.stderr).into_owned();
    assert!(output.status.success(), "{errors}");
    let output = Command::new(binary).output().unwrap();
    assert!(output.status.success());
    String::from_utf8(output.stdout).unwrap()
}

/// As tests/header.c fills them.
fn filled<const N: usize>(mut seed: u32) -> [u8; N] {
    [(); N].map(|()| {
        seed = seed.wrapping_mul(1_664_525).wrapping_add(1_013_904_223);
        (seed >> 24) as u8
    })
}

fn hash(bytes: &[u8]) -> u64 {
    bytes.iter().fold(0xcbf2_9ce4_8422_2325, |h, &byte| {
        (h ^ u64::from(byte)).wrapping_mul(0x0000_0100_0000_01b3)
    })
}

struct Lent {
    z: [u8; 8192],
    p: [u8; 512],
    zt: [u8; 64],
    scalars: Scalars,
}

impl Lent {
    fn fresh() -> Lent {
        Lent {
            z: filled(1),
            p: filled(2),
            zt: filled(3),
            scalars: Scalars {
                w12: 0x1111_1111,
                w13: 0x2222_2223,
                w14: 0x3333_3335,
                w15: 0x4444_4447,
                pc: 0xffff_ffff_ffff_fff8,
                v: true,
                s: true,
                t: true,
            },
        }
    }

    fn said(&self) -> String {
        let Scalars {
            w12,
            w13,
            w14,
            w15,
            pc,
            v,
            s,
            t,
        } = self.scalars;
        format!(
            " z {:016x} p {:016x} zt {:016x} w {w12:08x} {w13:08x} {w14:08x} {w15:08x} \
             pc {pc:016x} flags {} {} {}",
            hash(&self.z),
            hash(&self.p),
            hash(&self.zt),
            u8::from(v),
            u8::from(s),
            u8::from(t)
        )
    }

    fn step(&mut self, vl: u32, features: u32, word: u32) -> String {
        let Lent { z, p, zt, scalars } = self;
        let answer = ffi::step(z, p, zt, scalars, vl, features, word);
        format!("step {word:08x} answers {answer}{}\n", self.said())
    }

    fn run(&mut self, vl: u32, features: u32, words: &[u32]) -> String {
        let Lent { z, p, zt, scalars } = self;
        let mut done = 9;
        let answer = ffi::run(z, p, zt, scalars, vl, features, words, &mut done);
        format!("answers {answer} after {done}{}\n", self.said())
    }
}

fn decode(word: u32) -> String {
    let mut fields = [9; 7];
    let answer = ffi::decode(128, 31, word, &mut fields);
    let read = format!("decode answers {answer}: {}\n", spaced(&fields));
    let mut back = 9;
    let answer = ffi::encode(128, 31, &fields, &mut back);
    format!("{read}encode answers {answer}: {back:08x}\n")
}

fn encode(fields: [u32; 7]) -> String {
    let mut word = 9;
    let answer = ffi::encode(128, 31, &fields, &mut word);
    format!("encode {} answers {answer}: {word:08x}\n", spaced(&fields))
}

/// PEXT's portions in range and not, and the forms that it had before.
fn encodes() -> String {
    let mut said = String::new();
    for first in 0..5 {
        for portions in [0, 1, 2, 3, 258] {
            said.push_str(&encode([7, 8, first, portions, 9, 3, 0]));
        }
    }
    for fields in [
        [0, 8, 3, 9, 3, 0, 0],
        [1, 8, 1, 9, 3, 0, 0],
        [5, 8, 8, 0, 0, 0, 0],
        [8, 8, 0, 1, 9, 3, 0],
    ] {
        said.push_str(&encode(fields));
    }
    said
}

fn psel_index(vl: u32, size: u32, offset: u32, w: u32) -> String {
    let (mut sum, mut mask, mut index) = (9, 9, 9);
    let answer = ffi::psel_index(vl, size, offset, w, &mut sum, &mut mask, &mut index);
    format!("index {vl} {size} {offset} {w:08x} answers {answer}: {sum:08x} {mask:08x} {index}\n")
}

/// The index unit at every length and size, and its refusals.
fn psel_indexes() -> String {
    let mut said = String::new();
    for vl in [128, 256, 512, 1024, 2048] {
        said.push_str(&psel_index(vl, 8, 0, u32::MAX));
        said.push_str(&psel_index(vl, 16, 1, u32::MAX));
    }
    for size in [8, 16, 32, 64] {
        said.push_str(&psel_index(256, size, 128 / size - 1, u32::MAX - 1));
        said.push_str(&psel_index(256, size, 128 / size, u32::MAX - 1));
    }
    for (vl, size, offset) in [(512, 0, 0), (512, 24, 0), (129, 8, 0), (0, 0, u32::MAX)] {
        said.push_str(&psel_index(vl, size, offset, 5));
    }
    said
}

/// The same lines from Rust.
fn said_by_rust() -> String {
    let mut said = String::new();
    let mut say = |line: String| said.push_str(&line);
    say(format!(
        "interface version {}, the header's {INTERFACE_VERSION}\n",
        gighull::interface_version()
    ));
    say(format!(
        "record size {} align {}\n",
        size_of::<Scalars>(),
        align_of::<Scalars>()
    ));
    let offsets = [
        offset_of!(Scalars, w12),
        offset_of!(Scalars, w13),
        offset_of!(Scalars, w14),
        offset_of!(Scalars, w15),
        offset_of!(Scalars, pc),
        offset_of!(Scalars, v),
        offset_of!(Scalars, s),
        offset_of!(Scalars, t),
    ];
    say(format!("offsets {}\n", spaced(&offsets)));
    let sizes = [size_of::<u32>(), size_of::<u64>(), size_of::<bool>()];
    say(format!("field sizes {}\n", spaced(&sizes)));

    let mut lent = Lent::fresh();
    for m in 0..4 {
        say(lent.step(2048, 31, 0x2524_7c23 | m << 16));
    }
    for flag in 0..3 {
        let mut lent = Lent::fresh();
        lent.scalars.v = flag != 0;
        lent.scalars.s = flag != 1;
        lent.scalars.t = flag != 2;
        say(lent.step(256, 31, 0x2520_7010));
        say(lent.step(256, 31, 0xc08a_9000));
        say(lent.step(256, 28, 0x2520_7010));
    }
    let mut lent = Lent::fresh();
    for number in 0..16 {
        say(lent.step(512, 31, 0x4563_0062 | number << 10));
    }
    let mut lent = Lent::fresh();
    say(lent.step(129, 31, 0));
    let scalars = &mut lent.scalars;
    let answer = ffi::step(&mut [], &mut [], &mut [], scalars, 128, 31, 0x2520_7010);
    say(format!("step without files answers {answer}\n"));

    say(decode(0x25e3_4c85));
    say(decode(0x4535_2cbe));
    say(decode(0x25e0_73b4));
    say(decode(0x2520_753f));
    say(encodes());
    let mut word = 9;
    let answer = ffi::decode(128, 31, 0, &mut []);
    say(format!("decode to nowhere answers {answer}: {word}\n"));
    let answer = ffi::encode(128, 31, &[], &mut word);
    say(format!("encode of nothing answers {answer}: {word:08x}\n"));

    let mut out = [0xa5; 300];
    let count = ffi::vector(&lent.z, 512, 31, &mut out);
    say(format!("vector answers {count}: {:016x}\n", hash(&out)));
    let mut out = [0xa5; 300];
    let count = ffi::predicate(&lent.p, 512, 15, &mut out);
    say(format!("predicate answers {count}: {:016x}\n", hash(&out)));

    let input = [
        0x10, 0x70, 0x20, 0x25, 0x00, 0x40, 0x20, 0x25, 0x00, 0x38, 0x28, 0x45, 0xff,
    ];
    let mut out = [0xa5; 300];
    let mut written = 9;
    let count = ffi::lines(&input, &mut out, &mut written);
    say(format!(
        "lines answers {count}, {written}: {:016x}\n",
        hash(&out)
    ));

    let words = [0x4528_3801, 0x2520_7010, 0xc08a_9000, 0x2525_7c23, 0];
    let mut lent = Lent::fresh();
    say(format!("run {}", lent.run(256, 31, &words)));
    say(format!("run of nothing {}", lent.run(256, 31, &[])));
    let mut yes = 9;
    let answer = ffi::conflict(128, 31, 0x4528_3801, 0x4528_3822, &mut yes);
    say(format!("conflict answers {answer}: {yes}\n"));
    let answer = ffi::conflict(128, 31, 0x4528_3801, 0x4528_3802, &mut yes);
    say(format!("no conflict answers {answer}: {yes}\n"));
    let words = [0x4528_3801, 0x4528_3802, 0x4528_3823];
    let mut may = 9;
    let answer = ffi::permitted(128, 31, &words, &[1, 0, 2], &mut may);
    say(format!("permitted answers {answer}: {may}\n"));
    let answer = ffi::permitted(128, 31, &words, &[2, 1, 0], &mut may);
    say(format!("not permitted answers {answer}: {may}\n"));
    say(psel_indexes());
    said
}

fn spaced<T: std::fmt::Display>(numbers: &[T]) -> String {
    let mut text = String::new();
    for (place, number) in numbers.iter().enumerate() {
        let space = if place == 0 { "" } else { " " };
        write!(text, "{space}{number}").unwrap();
    }
    text
}

#[test]
fn c_and_rust_find_the_same() {
    let (c, rust) = (said_by_c(), said_by_rust());
    for (c, rust) in c.lines().zip(rust.lines()) {
        assert_eq!(c, rust);
    }
    assert_eq!(c, rust);
    // What they both find is not nothing: words are done, and refused.
    for part in [
        "interface version 5, the header's 5\n",
        "record size 32 align 8\n",
        "answers 0 z",
        "answers 1 z",
        "answers 4 z",
        "answers 5 z",
        "answers 6 z",
        "files answers 2",
        "decode answers 0: 2 64 1 15 3 4 5\n",
        "encode answers 0: 25e34c85\n",
        "decode answers 0: 6 11 16 11 5 30 0\n",
        "encode answers 0: 45352cbe\n",
        "decode answers 0: 7 64 3 1 13 4 0\n",
        "encode answers 0: 25e073b4\n",
        "decode answers 0: 7 8 2 2 9 15 0\n",
        "encode answers 0: 2520753f\n",
        "encode 7 8 0 0 9 3 0 answers 9: 00000000\n",
        "encode 7 8 0 1 9 3 0 answers 0: 25207033\n",
        "encode 7 8 3 1 9 3 0 answers 0: 25207333\n",
        "encode 7 8 4 1 9 3 0 answers 9: 00000000\n",
        "encode 7 8 0 2 9 3 0 answers 0: 25207433\n",
        "encode 7 8 1 2 9 3 0 answers 9: 00000000\n",
        "encode 7 8 2 2 9 3 0 answers 0: 25207533\n",
        "encode 7 8 3 2 9 3 0 answers 9: 00000000\n",
        "encode 7 8 4 2 9 3 0 answers 9: 00000000\n",
        "encode 7 8 0 3 9 3 0 answers 9: 00000000\n",
        "encode 7 8 0 258 9 3 0 answers 9: 00000000\n",
        "encode 0 8 3 9 3 0 0 answers 9: 00000000\n",
        "encode 1 8 1 9 3 0 0 answers 9: 00000000\n",
        "encode 5 8 8 0 0 0 0 answers 9: 00000000\n",
        "encode 8 8 0 1 9 3 0 answers 9: 00000000\n",
        "encode of nothing answers 9: 00000000\n",
        "vector answers 64:",
        "predicate answers 8:",
        "lines answers 13, 60:",
        "run answers 3 after 4 z",
        "run of nothing answers 0 after 0 z",
        "\nconflict answers 0: 1\n",
        "\nno conflict answers 0: 0\n",
        "\npermitted answers 0: 1\n",
        "\nnot permitted answers 0: 0\n",
        "pc 0000000000000004 ",
        "\nindex 128 8 0 ffffffff answers 0: ffffffff 0000000f 15\n",
        "\nindex 128 16 1 ffffffff answers 0: 00000000 00000007 0\n",
        "\nindex 256 8 0 ffffffff answers 0: ffffffff 0000001f 31\n",
        "\nindex 512 8 0 ffffffff answers 0: ffffffff 0000003f 63\n",
        "\nindex 1024 8 0 ffffffff answers 0: ffffffff 0000007f 127\n",
        "\nindex 2048 8 0 ffffffff answers 0: ffffffff 000000ff 255\n",
        "\nindex 2048 16 1 ffffffff answers 0: 00000000 0000007f 0\n",
        "\nindex 256 8 15 fffffffe answers 0: 0000000d 0000001f 13\n",
        "\nindex 256 16 7 fffffffe answers 0: 00000005 0000000f 5\n",
        "\nindex 256 32 3 fffffffe answers 0: 00000001 00000007 1\n",
        "\nindex 256 64 1 fffffffe answers 0: ffffffff 00000003 3\n",
        "\nindex 256 8 16 fffffffe answers 9: 00000000 00000000 0\n",
        "\nindex 256 64 2 fffffffe answers 9: 00000000 00000000 0\n",
        "\nindex 512 0 0 00000005 answers 9: 00000000 00000000 0\n",
        "\nindex 512 24 0 00000005 answers 9: 00000000 00000000 0\n",
        "\nindex 129 8 0 00000005 answers 1: 00000000 00000000 0\n",
        "\nindex 0 0 4294967295 00000005 answers 1: 00000000 00000000 0\n",
    ] {
        assert!(c.contains(part), "{part} is not in\n{c}");
    }
}

/// The functions that the archive defines.
fn in_the_archive() -> BTreeSet<String> {
    let output = Command::new("nm")
        .args(["--defined-only", "--extern-only", ffi::ARCHIVE])
        .output()
        .expect("nm is there");
    assert!(output.status.success());
    let text = String::from_utf8(output.stdout).unwrap();
    text.lines()
        .filter_map(|line| line.split_once(" T "))
        .map(|(_, name)| name.to_string())
        .collect()
}

fn header() -> String {
    fs::read_to_string(Path::new(HEADERS).join("gighull.h")).unwrap()
}

/// The functions that the header declares: names that a parenthesis follows.
fn in_the_header() -> BTreeSet<String> {
    let text = header();
    let code: String = text
        .split("/*")
        .map(|part| part.split_once("*/").map_or(part, |(_, code)| code))
        .collect();
    code.split('(')
        .filter_map(|before| before.split([' ', '\n', '*']).next_back())
        .filter(|name| name.starts_with("gighull_"))
        .map(str::to_string)
        .collect()
}

#[test]
fn the_same_functions_everywhere() {
    let rust: BTreeSet<String> = ffi::FUNCTIONS.into_iter().map(str::to_string).collect();
    assert_eq!(in_the_archive(), rust);
    // The header itself defines one over another.
    let mut declared = rust;
    declared.insert("gighull_run_lent".to_string());
    assert_eq!(in_the_header(), declared);
}

/// The header has each form's name and fields behind its number, and each
/// narrowing word's name beside its own.
#[test]
fn the_header_s_names_are_the_library_s() {
    let text = header();
    let words: Vec<&str> = text.split_whitespace().collect();
    let joined = words.join(" ").to_lowercase();
    for form in Form::ALL {
        let [number, ..] = form.with([0; 6]).numbers();
        let fields = form.field_names().join(" ");
        let line = match form {
            Form::Narrow(_) => format!(" {number} narrowing number {fields} "),
            _ => format!(" {number} {form} {fields} "),
        };
        assert!(joined.contains(&line.to_lowercase()), "{line}");
    }
    for narrowing in Narrowing::ALL {
        let pair = [&*narrowing.number().to_string(), narrowing.name()];
        let count = words.windows(2).filter(|words| **words == pair).count();
        assert_eq!(count, 1, "{pair:?}");
    }
}

/// The record's fields are the library's: each index register is the one that
/// a PSEL by it reads, PC is what moves, and each flag is the one that is asked.
#[test]
fn the_record_is_the_library_s() {
    for read in 0..4u32 {
        for set in 0..4u32 {
            let mut machine = gighull::Machine::new();
            let scalars = &mut machine.scalars;
            (scalars.w12, scalars.w13, scalars.w14, scalars.w15) = (1, 2, 3, 4);
            scalars.pc = 0x0123_4567_89ab_cdef;
            // PSEL.B by P1's element W, of P15, to P3
            machine.set_bit(15, 0, true).unwrap();
            machine.set_bit(1, 1 + set, true).unwrap();
            let word = 0x2524_7c23 | read << 16;
            let mut other = machine.clone();
            machine.step(gighull::Setting::FULL, word).unwrap();
            assert_eq!(machine.bit(3, 0), Ok(read == set));
            other.run(gighull::Setting::FULL, &[word]).unwrap();
            assert!(other == machine, "a run of one word is a step");
            let expected = Scalars {
                w12: 1,
                w13: 2,
                w14: 3,
                w15: 4,
                pc: 0x0123_4567_89ab_cdf3,
                v: true,
                s: true,
                t: true,
            };
            assert_eq!(machine.scalars, expected);
        }
    }
    let answers = |v, s, t| {
        let mut machine = gighull::Machine::new();
        (machine.scalars.v, machine.scalars.s, machine.scalars.t) = (v, s, t);
        [0x2524_7c23, 0xc08a_9000].map(|word| {
            let answer = machine.step(gighull::Setting::FULL, word);
            answer.err().map_or(0, gighull::Refusal::number)
        })
    };
    assert_eq!(answers(true, true, true), [0, 0]);
    assert_eq!(answers(false, true, true), [4, 0]);
    assert_eq!(answers(true, false, true), [0, 5]);
    assert_eq!(answers(true, true, false), [0, 6]);
    assert_eq!(answers(true, false, false), [0, 5]);
}
