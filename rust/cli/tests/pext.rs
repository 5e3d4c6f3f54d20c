//! PEXT by its own name, and by the two that lessons and commands had for it
//! before.

mod support;

use std::fs;

use gighull_cli::lesson::word::word;
use reference::encode::encode;
use reference::instruction::Instruction;
use reference::setting::FULL;
use support::by_reference::lesson;
use support::told::compare;
use support::{complaint, folder, gighull, gighull_in, names_in, out, told, told_of, wrong};

/// The first portion and their number, of every word; and the older name for it,
/// with the field in which it has the first.
const PORTIONS: [(u32, u32, &str); 6] = [
    (0, 1, "PEXT1 imm2=0"),
    (1, 1, "PEXT1 imm2=1"),
    (2, 1, "PEXT1 imm2=2"),
    (3, 1, "PEXT1 imm2=3"),
    (0, 2, "PEXT2 i1=0"),
    (2, 2, "PEXT2 i1=1"),
];

#[test]
fn every_word_by_both_names() {
    for (first, portions, older) in PORTIONS {
        for size in [8, 16, 32, 64] {
            for counter in 8..16 {
                for pd in 0..16 {
                    let instruction = Instruction::Pext {
                        size,
                        first,
                        portions,
                        counter,
                        pd,
                    };
                    let expected = encode(FULL, instruction).unwrap();
                    let own = format!("PEXT first={first} portions={portions}");
                    for start in [&own, older] {
                        let text = format!("{start} size={size} counter={counter} pd={pd}");
                        assert_eq!(word(&text), Ok(expected), "{text}");
                    }
                }
            }
        }
    }
}

/// In either case, with the fields in any order; read back it is PEXT.
#[test]
fn commands_take_each_name() {
    let word = "25207533\n";
    for text in [
        "PEXT size=8 first=2 portions=2 counter=9 pd=3",
        "pext pd=3 counter=9 portions=2 first=2 size=8",
        "PEXT2 size=8 i1=1 counter=9 pd=3",
        "pext2 pd=3 counter=9 i1=1 size=8",
    ] {
        let parts: Vec<&str> = text.split(' ').collect();
        assert_eq!(told(&[&["encode"], &parts[..]].concat(), 0), word, "{text}");
        // They meet in the register after the first destination.
        let other = "PEXT1 size=16 imm2=3 counter=8 pd=4";
        let said = told(&["conflict", text, other], 0);
        let lines = "conflict: yes\n\
                     25207533 PEXT size=8 first=2 portions=2 counter=9 pd=3: reads p9, writes p3 and p4\n\
                     25607314 PEXT size=16 first=3 portions=1 counter=8 pd=4: reads p8, writes p4\n\
                     the first writes p4 and the second writes it\n";
        assert_eq!(said, lines, "{text}");
    }
    let lines = told(&["decode", "25207233", "2520741f"], 0);
    assert_eq!(
        lines,
        "25207233 PEXT size=8 first=2 portions=1 counter=9 pd=3\n\
         2520741f PEXT size=8 first=0 portions=2 counter=8 pd=15\n"
    );
}

/// A lesson by the older names does what it did, and its steps are told by PEXT.
#[test]
fn lessons_take_each_name() {
    let folder = folder("pext-lessons");
    let start = "vl 256\npn9 = counter h all but 40\n";
    let both = PORTIONS.map(|(first, portions, older)| {
        let rest = format!("size=16 counter=9 pd={}", (first + 15) % 16);
        (
            format!("PEXT first={first} portions={portions} {rest}\n"),
            format!("{older} {rest}\n"),
        )
    });
    let (own, older): (Vec<String>, Vec<String>) = both.into_iter().unzip();
    let [own, older] = [own, older].map(|words| format!("{start}{}end\n", words.concat()));
    let told = told_of(&folder, &own, &["--steps"], 0);
    assert_eq!(told_of(&folder, &older, &["--steps"], 0), told);
    assert!(told.contains(" PEXT size=16 first=2 portions=2 counter=9 pd=1\n"));
    assert!(!told.contains("PEXT1") && !told.contains("PEXT2"), "{told}");
    assert_eq!(compare(&told, &lesson(&own, None)).steps, PORTIONS.len());
}

const SIZES: &str = "size 8, 16, 32 or 64";
const REGISTERS: &str = "counter 8 to 15; pd 0 to 15";

/// A word with a field out of range, and the ranges that are told of it.
fn out_of_range() -> Vec<(String, String)> {
    let own =
        format!("{SIZES}; first 0 to 3, with two portions 0 or 2; portions 1 or 2; {REGISTERS}");
    let older = [
        format!("{SIZES}; imm2 0 to 3; {REGISTERS}"),
        format!("{SIZES}; i1 0 or 1; {REGISTERS}"),
    ];
    let mut texts = Vec::new();
    let mut refused = |name: &str, fields: &str, rest: &str, ranges: &String| {
        texts.push((format!("{name} {fields} {rest}"), ranges.clone()));
    };
    let rest = "size=8 counter=8 pd=0";
    for fields in [
        "first=1 portions=2",
        "first=3 portions=2",
        "first=4 portions=1",
        "first=4 portions=2",
        "first=0 portions=0",
        "first=0 portions=3",
        "first=0 portions=257",
        "first=0 portions=258",
        "first=0 portions=4294967295",
        "first=256 portions=1",
        "first=2147483648 portions=2",
        "first=2147483650 portions=2",
        "first=4294967295 portions=1",
    ] {
        refused("PEXT", fields, rest, &own);
    }
    for imm2 in ["4", "256", "2147483648", "4294967295"] {
        refused("PEXT1", &format!("imm2={imm2}"), rest, &older[0]);
    }
    // Twice the third wraps to 0, and twice the fourth to 2.
    for i1 in ["2", "256", "2147483648", "2147483649", "4294967295"] {
        refused("PEXT2", &format!("i1={i1}"), rest, &older[1]);
    }
    for (name, fields, ranges) in [
        ("PEXT", "first=0 portions=1", &own),
        ("PEXT1", "imm2=0", &older[0]),
        ("PEXT2", "i1=0", &older[1]),
    ] {
        for rest in [
            "size=9 counter=8 pd=0",
            "size=8 counter=7 pd=0",
            "size=8 counter=8 pd=16",
        ] {
            refused(name, fields, rest, ranges);
        }
    }
    texts
}

/// The bench answers 9, and each name has its own ranges.
#[test]
fn fields_out_of_range() {
    let folder = folder("pext-ranges");
    for (text, ranges) in out_of_range() {
        let parts: Vec<&str> = text.split(' ').collect();
        let answer = "9: a field given for writing a word is outside its range";
        let line = format!("{}: {answer} ({ranges})\n", parts[0]);
        let output = gighull(&[&["encode"], &parts[..]].concat());
        assert_eq!(complaint(&output), format!("gighull encode: {line}"));
        assert_eq!(
            (output.status.code(), out(&output)),
            (Some(2), String::new())
        );
        wrong(
            &["conflict", &text, "25207010"],
            &format!("gighull conflict: {line}"),
        );
        fs::write(folder.join("some.lesson"), format!("{text}\nend\n")).unwrap();
        let output = gighull_in(&folder, &["run", "some.lesson", "--save", "saved.lesson"]);
        assert_eq!(complaint(&output), format!("some.lesson:1: {line}"));
        assert_eq!(output.status.code(), Some(1), "{text}");
        assert_eq!(names_in(&folder), ["some.lesson"]);
    }
}

/// A field that is missing, that another name has, or that is wrong.
#[test]
fn fields_of_each_name() {
    for (text, line) in [
        (
            "PEXT",
            "PEXT: field size is missing: size, first, portions, counter, pd\n",
        ),
        (
            "PEXT portions=1 counter=8 pd=0 size=8",
            "PEXT: field first is missing: size, first, portions, counter, pd\n",
        ),
        (
            "pext size=8 first=0 counter=8 pd=0",
            "PEXT: field portions is missing: size, first, portions, counter, pd\n",
        ),
        (
            "PEXT size=8 imm2=0 counter=8 pd=0",
            "PEXT has no field 'imm2': size, first, portions, counter, pd\n",
        ),
        (
            "PEXT size=8 i1=0 counter=8 pd=0",
            "PEXT has no field 'i1': size, first, portions, counter, pd\n",
        ),
        (
            "PEXT 8 0 1 8 0",
            "PEXT: '8' is no field=value: size, first, portions, counter, pd\n",
        ),
        ("PEXT first=0 first=0", "PEXT: first is given twice\n"),
        ("PEXT first=-1", "PEXT: 'first=-1' is no number\n"),
        (
            "PEXT portions=4294967297",
            "PEXT: 'portions=4294967297' is no number\n",
        ),
        (
            "PEXT1 size=8",
            "PEXT1: field imm2 is missing: size, imm2, counter, pd\n",
        ),
        (
            "PEXT1 size=8 first=0 counter=8 pd=0",
            "PEXT1 has no field 'first': size, imm2, counter, pd\n",
        ),
        (
            "pext2 size=8 i1=0 portions=2 counter=8 pd=0",
            "PEXT2 has no field 'portions': size, i1, counter, pd\n",
        ),
        (
            "PEXT3 size=8",
            "'PEXT3' is no form: PEXT, PEXT1, PEXT2, PSEL, LUTI4C, LUTI4S, SQSHRUNB, ",
        ),
    ] {
        let parts: Vec<&str> = text.split(' ').collect();
        let encode = [&["encode"], &parts[..]].concat();
        wrong(&encode, &format!("gighull encode: {line}"));
    }
}
