//! The command `run`, with right and wrong lessons and options.

mod support;

use std::fs;
use std::io::Read;
use std::path::Path;

use support::{ROOT, complaint, folder, gighull, gighull_in, names_in, told, told_of, wrong};

fn has_all(told: &str, parts: &[&str]) {
    for part in parts {
        assert!(told.contains(part), "{part} is not in\n{told}");
    }
}

#[test]
fn answers_of_a_run() {
    let folder = folder("answers");
    let said = |text: &str, status, parts: &[&str]| {
        has_all(&told_of(&folder, text, &[], status), parts);
    };
    said(
        "end",
        0,
        &[
            "answer   0: done\nwords    0 of 0 done\n",
            "no register changed\n",
        ],
    );
    let undefined = "pc = 0xfffffffffffffffc\n45283801\n25204000\nend\n";
    said(
        undefined,
        2,
        &[
            "answer   3: undefined: no layout, with its condition, matches\n",
            "words    1 of 2 done\nstopped  before word 1, line 3: 25204000 UNDEFINED\n",
            "pc       0xfffffffffffffffc -> 0x0\n",
        ],
    );
    said(
        "flags s t\n45283801\nend",
        2,
        &["answer   4: the word needs V and V is closed\n"],
    );
    said(
        "flags v t\nc08a9000\nend",
        2,
        &["answer   5: ", "words    0 of 1 done\n"],
    );
    said("flags v s\nc08a9000\nend", 2, &["answer   6: "]);
    said(
        "flags none\nc08a9000\nend",
        2,
        &["answer   5: ", "open flags none\n"],
    );
    said(
        "features none\nc08a9000\nend",
        2,
        &["answer   3: ", "features none;"],
    );
    let sve = "features sve2\nLUTI4C size=16 i1=0 zn=0 zd=0\nend";
    said(
        sve,
        2,
        &["stopped  before word 0, line 2: c08a9000 UNDEFINED\n"],
    );
    said("features sve2 sve2p1\n25e04000\nend", 0, &["answer   0: "]);
    said("features sve2\n25e04000\nend", 2, &["answer   3: "]);
    let long = "45283801\n".repeat(257) + "end";
    said(
        &long,
        2,
        &[
            "answer   8: a stretch of more than 256 words\n",
            "words    0 of 257 done\n",
        ],
    );
    // Without words done there are no blocks either.
    let blocks = told_of(&folder, &long, &["--steps"], 2);
    assert!(!blocks.contains("\nword "));
}

/// What has not been seen in the stored lessons: bits between elements, a
/// repeated list, W, and orders that are refused or lucky.
#[test]
fn other_contents() {
    let folder = folder("contents");
    let text = "vl 256\np3 = bits 1 1 1 0 1\np1.b = 1 1 0 0 repeat\nw13 = 0xffffffff\n\
                PSEL size=16 offset=1 index=13 pn=1 pm=3 pd=3\nend\n";
    let told = told_of(&folder, text, &[], 0);
    // Index (2^32 - 1 + 1) mod 16 is 0, which is true: all of p1.
    let block = "p3.b  before   0: 11101000 00000000 00000000 00000000\n      \
                 after    0: 11001100 11001100 11001100 11001100\n";
    assert!(told.ends_with(block), "{told}");
    // A view that hides bits does not hide a change.
    let text = "vl 256\npn9 = counter b all\nshow pn8\nshow p8.d\n\
                PEXT size=8 first=0 portions=1 counter=9 pd=8\nend\n";
    let parts = [
        "pn8   after  0xffff",
        "p8.d  before  all 0\n",
        "p8.b  before  all 0\n",
    ];
    has_all(&told_of(&folder, text, &[], 0), &parts);
    let copies = "45283801\n45283801\norder 1 0\nend";
    let told = told_of(&folder, copies, &[], 0);
    assert!(
        told.contains("forbidden: word 0 writes z1 and word 1 writes it, and"),
        "{told}"
    );
    assert!(
        told.contains("both ended alike, in every byte and scalar (with these"),
        "{told}"
    );
    let refused = "45283801\n00000000\norder 1 0\nend";
    let told = told_of(&folder, refused, &[], 2);
    assert!(told.contains("no answer: 3: undefined"), "{told}");
    assert!(told.contains("so nothing is promised"), "{told}");
    let cut = "vl 256\nz0.b = 0..31\npn8 = counter b first 100\nend";
    let told = told_of(&folder, cut, &["--vl", "128"], 0);
    assert!(told.contains("note     line 2 lists 32 elements of z0.b, and at VL 128 the first 16"));
    assert!(
        told.contains("note     line 3 counts 100 elements, and at VL 128 four registers have 64")
    );
}

/// By which elements a narrowing word's result is told, and when with signs.
#[test]
fn results_with_and_without_signs() {
    let folder = folder("signs");
    let ends = |word: &str, end: &str| {
        let text = format!("z0.h = -300 300 -1 5\n{word} size=8 shift=1 zn=0 zd=1\nend\n");
        let told = told_of(&folder, &text, &[], 0);
        assert!(told.ends_with(end), "{told}");
    };
    // -150 and 150 are cut, and -1/2 goes down.
    ends(
        "SQSHRNB",
        "z1.b  before  all 0\n      \
         after    0: -128    0  127    0   -1    0    2    0\n               \
         8:    0    0    0    0    0    0    0    0\n",
    );
    ends(
        "SQRSHRNT",
        "z1.b  before  all 0\n      \
         after    0:    0 -128    0  127    0    0    0    3\n               \
         8:    0    0    0    0    0    0    0    0\n",
    );
    // -150 is 106 in its low half, -1/2 is 255.
    ends(
        "SHRNT",
        "z1.b  before  all 0\n      \
         after    0:   0 106   0 150   0 255   0   2   0   0   0   0   0   0   0   0\n",
    );
    // With the zeros above them, by the width of the sources.
    ends(
        "SHRNB",
        "z1.h  before  all 0\n      after   0: 106 150 255   2   0   0   0   0\n",
    );
    ends(
        "SQSHRUNB",
        "z1.h  before  all 0\n      after   0:   0 150   0   2   0   0   0   0\n",
    );
    // The last word counts, and another width than the one with signs has none.
    let text = "z0.h = -300 300\nz2.h = -1\nSQSHRNB size=8 shift=1 zn=0 zd=1\n\
                UQSHRNT size=8 shift=8 zn=0 zd=1\nshow z2.h\nshow z2.s\nend\n";
    let parts = [
        "      after    0: 128 254 127   1   0   0",
        "z2.h  unchanged  0: -1  0  0  0  0  0  0  0\n",
        "z2.s  unchanged  0: 65535     0     0     0\n",
    ];
    has_all(&told_of(&folder, text, &[], 0), &parts);
}

/// What PSEL copies is told as it was given where it comes from, and by PSEL's
/// own size where it was not given; bits between those are shown.
#[test]
fn copies_are_told_as_what_is_copied() {
    let folder = folder("copies");
    let text = "p1.h = 1 0 1\np2.s = 1 0 0 1\np4.d = 1 1\n\
                pn8 = counter 0x0011\npn9 = counter 0x0003\n\
                PSEL size=32 offset=3 index=12 pn=1 pm=2 pd=4\n\
                PSEL size=8 offset=0 index=12 pn=4 pm=2 pd=5\n\
                PSEL size=32 offset=0 index=12 pn=8 pm=2 pd=6\n\
                PSEL size=32 offset=0 index=12 pn=9 pm=2 pd=7\nend\n";
    let told = told_of(&folder, text, &[], 0);
    let blocks = "p4.h  before  0: 10001000\n      after   0: 10100000\n\
                  p5.h  before  all 0\n      after   0: 10100000\n\
                  p6.s  before  all 0\n      after   0: 1100\n\
                  p7.b  before  all 0\n      after    0: 11000000 00000000\n";
    assert!(told.ends_with(blocks), "{told}");
}

/// What is wrong, and where.
#[test]
fn wrong_lessons() {
    let folder = folder("wrong");
    let orders = "45283801\n".to_string() + &"order 0\n".repeat(101) + "end";
    let cases = [
        ("", "1: the line `end` is missing"),
        ("\n\n", "2: the line `end` is missing"),
        ("end\nvl 128", "2: 'vl' follows `end`"),
        ("end of it", "1: 'of it' follows `end`"),
        ("vl 128\nvl 128\nend", "2: vl stands on line 1 already"),
        ("vl\nend", "1: vl: '' is no vector length"),
        ("vl 65664\nend", "1: vl: '65664' is no vector length"),
        (
            "features 32\nend",
            "1: features: '32' is no number from 0 to 31",
        ),
        ("features 2\nend", "1: features: sve2p1 needs sve2"),
        ("features sme2\nend", "1: features: sve2p1 needs sve2"),
        ("features neon\nend", "1: features: there is no 'neon'"),
        ("flags\nend", "1: flags: the open ones"),
        ("flags v none\nend", "1: flags: 'none' is none of"),
        (
            "z0.h = 1\nvl 128\nend",
            "2: vl, features and flags come before the registers",
        ),
        (
            "45283801\nz0.h = 1\nend",
            "2: the registers come before the words",
        ),
        (
            "45283801\norder 0\n45283801\nend",
            "3: the words come before the orders",
        ),
        (
            "z0.h = 1\n\nz0.b = 1\nend",
            "3: z0 stands on line 1 already",
        ),
        (
            "p8.b = 1\npn8 = counter 1\nend",
            "2: p8 stands on line 1 already",
        ),
        ("z0 = 1\nend", "1: z0 is set by element"),
        ("zt0 = 1\nend", "1: zt0 is set by"),
        ("p0 = 1\nend", "1: p0 is set by"),
        ("z0.h =\nend", "1: z0.h: there are no values"),
        ("z0.h = 1 2 …\nend", "1: z0.h: … says too little"),
        ("z0.h = 0..8\nend", "1: z0.h has 8 elements at VL 128"),
        ("p0.b = 2\nend", "1: p0.b: '2' is no number from 0 to 1"),
        ("p0.b = -1\nend", "1: p0.b: '-1' is no number from 0 to 1"),
        (
            "z0.h = 1 -32769\nend",
            "1: z0.h: '-32769' is no number from -32768 to 65535",
        ),
        ("w12 = -1\nend", "1: w12: '-1' is no number from 0 to"),
        (
            "UQRSHRN size=8 shift=8 zn=0 zd=0\nend",
            "1: 'UQRSHRN' is no form: PEXT, PEXT1, PEXT2, PSEL, ",
        ),
        ("w12 = 4294967296\nend", "1: w12: '4294967296' is no number"),
        ("w16 = 1\nend", "1: there is no 'w16'"),
        ("pc = 1 2\nend", "1: pc: '1 2' is no number"),
        (
            "pn8 = counter q all\nend",
            "1: counter: 'q' is no element size",
        ),
        ("pn8 = counter b 3\nend", "1: a counter is written"),
        (
            "pn8 = counter b first 65\nend",
            "1: counter: four registers have 64",
        ),
        (
            "pn8 = counter 65536\nend",
            "1: counter: '65536' is no number",
        ),
        ("4528380\nend", "1: '4528380' is no word"),
        ("45283801 45283801\nend", "1: '45283801' follows a word"),
        (
            "UQRSHRNB size=8 shift=9 zn=0 zd=0\nend",
            "1: UQRSHRNB: 9: a field",
        ),
        ("45283801\norder\nend", "2: order: word 0 is left out"),
        ("45283801\norder 0 0\nend", "2: order: word 0 comes twice"),
        ("45283801\norder 1\nend", "2: order: '1' is no position"),
        (&orders, "102: a lesson has at most 100 orders"),
        ("show z0\nend", "1: show: 'z0' is none of"),
        (
            "show z0.b\nshow Z0.b\nend",
            "2: show z0.b stands on line 1 already",
        ),
    ];
    for (text, expected) in cases {
        fs::write(folder.join("some.lesson"), text).unwrap();
        let output = gighull_in(&folder, &["run", "some.lesson"]);
        let said = complaint(&output);
        assert_eq!(output.status.code(), Some(1), "{text}");
        assert!(
            said.starts_with(&format!("some.lesson:{expected}")),
            "{text}: {said}"
        );
    }
}

#[test]
fn options_of_run() {
    let diode = "lessons/diode.lesson";
    wrong(&["run"], "gighull run: which lesson?");
    wrong(&["run", "no.lesson"], "no.lesson: ");
    wrong(&["run", "lessons"], "lessons: ");
    wrong(
        &["run", diode, diode],
        "gighull run: 'lessons/diode.lesson' is one lesson too many",
    );
    wrong(
        &["run", diode, "--vl"],
        "gighull run: a vector length is missing",
    );
    wrong(
        &["run", diode, "--vl", "65664"],
        "gighull run: --vl: '65664' is no vector length",
    );
    wrong(
        &["run", diode, "--step"],
        "gighull run: there is no option '--step'",
    );
    wrong(
        &["run", diode, "--plot", "z4", "x.svg"],
        "gighull run: --plot: 'z4' ",
    );
    wrong(
        &["run", diode, "--plot", "z4.h"],
        "gighull run: a file such as curve.svg",
    );
    wrong(
        &["run", diode, "--plot", "z4.h:3-2", "x.svg"],
        "gighull run: --plot: 'z4.h:3-2' ",
    );
    wrong(
        &["run", diode, "--plot", "z4.s:0-16", "x.svg"],
        "gighull run: --plot: z4.s has 16",
    );
    wrong(
        &["run", diode, "--save", diode],
        "lessons/diode.lesson: this file has another use",
    );
    wrong(&["run", diode, "--save", "lessons"], "lessons: ");
    wrong(
        &["run", diode, "--save", "/dev/null"],
        "/dev/null: there is something that is no plain",
    );
    wrong(
        &["run", diode, "--save", "no/such/folder"],
        "no/such/folder: ",
    );
    wrong(&["run", "/dev/zero"], "/dev/zero: a lesson has at most");
    wrong(&[], "gighull: which command?");
    wrong(&["walk"], "gighull: there is no command 'walk'");
    assert!(!Path::new(ROOT).join("x.svg").exists());
}

#[test]
fn files_are_whole_or_not_there() {
    let folder = folder("files");
    let path = |name: &str| folder.join(name).to_str().unwrap().to_string();
    let run = |save: &str, plot: &str| {
        let options = ["--save", save, "--plot", "z8.s", plot];
        gighull(&[&["run", "lessons/diode.lesson"], &options[..]].concat())
    };
    fs::write(path("saved"), "old").unwrap();
    // The second cannot be written, so the first is as it was.
    assert_eq!(
        run(&path("saved"), &path("none/curve.svg")).status.code(),
        Some(1)
    );
    assert_eq!(
        run(&path("none/saved"), &path("curve.svg")).status.code(),
        Some(1)
    );
    assert_eq!(run(&path("both"), &path("both")).status.code(), Some(1));
    assert_eq!(names_in(&folder), ["saved"]);
    assert_eq!(fs::read_to_string(path("saved")).unwrap(), "old");
    let mut before = fs::File::open(path("saved")).unwrap();
    assert_eq!(
        run(&path("saved"), &path("curve.svg")).status.code(),
        Some(0)
    );
    // Who reads the old file meanwhile reads it whole: it is another file.
    let mut old = String::new();
    before.read_to_string(&mut old).unwrap();
    assert_eq!(old, "old");
    assert_eq!(names_in(&folder), ["curve.svg", "saved"]);
    // What was saved is a lesson; it starts where the other ended, and saved
    // again it is the same.
    let again = ["run", &path("saved"), "--save", &path("again")];
    let told = told(&again, 0);
    assert!(told.contains("pc       0x10 -> 0x10\n"), "{told}");
    let contents = |name: &str| {
        let text = fs::read_to_string(path(name)).unwrap();
        let lines = text.lines().filter(|line| !line.starts_with('#'));
        lines.map(str::to_string).collect::<Vec<String>>()
    };
    assert_eq!(contents("saved"), contents("again"));
    assert!(contents("saved").contains(&"flags v s t".to_string()));
    let z8 = "z8.h = 0 0 0 0 3 0 29 0 260 0 1880 0 7610 0 17387 0 29316 0 42339 0 55987";
    assert!(contents("saved").contains(&z8.to_string()));
}
