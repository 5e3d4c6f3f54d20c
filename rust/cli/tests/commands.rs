//! The commands about words, with right and wrong input.

mod support;

use std::fs;
use std::io::{Read, Write};
use std::process::{Command, Stdio};

use reference::random::Random;
use reference::setting::FULL;
use reference::stretches::any_stretch;
use support::{complaint, folder, gighull, out, told, wrong};

/// The command's answer to bytes on its standard input.
fn piped(arguments: &[&str], input: &[u8]) -> String {
    let mut child = Command::new(env!("CARGO_BIN_EXE_gighull"))
        .args(arguments)
        .stdin(Stdio::piped())
        .stdout(Stdio::piped())
        .spawn()
        .unwrap();
    let mut stdin = child.stdin.take().unwrap();
    let input = input.to_vec();
    let writer = std::thread::spawn(move || stdin.write_all(&input));
    let output = child.wait_with_output().unwrap();
    writer.join().unwrap().unwrap();
    assert_eq!(output.status.code(), Some(0));
    String::from_utf8(output.stdout).unwrap()
}

#[test]
fn list() {
    let mut random = Random::new(72);
    let folder = folder("list");
    // Also longer than what is read at once, with a record across its edge.
    for length in [
        0, 1, 3, 4, 12, 13, 65535, 65536, 65537, 65538, 131_072, 200_003,
    ] {
        let bytes: Vec<u8> = (0..length).map(|_| random.next_u32() as u8).collect();
        let expected = String::from_utf8(reference::lister::list(&bytes)).unwrap();
        assert!(piped(&["list"], &bytes) == expected, "{length}");
        assert!(piped(&["list", "-"], &bytes) == expected, "{length}");
        let path = folder.join("words");
        fs::write(&path, &bytes).unwrap();
        assert!(told(&["list", path.to_str().unwrap()], 0) == expected);
    }
    wrong(&["list", "no/such/file"], "no/such/file: ");
    wrong(&["list", "lessons"], "lessons: ");
    wrong(&["list", "a", "b"], "gighull list: ");
}

#[test]
fn decode_and_encode() {
    for word in any_stretch(&mut Random::new(73), FULL, 60) {
        let word = format!("{word:08x}");
        let line = told(&["decode", &word], 0);
        let (first, instruction) = line.trim_end().split_once(' ').unwrap();
        assert_eq!(first, word);
        let parts: Vec<&str> = instruction.split(' ').collect();
        let arguments = [&["encode"], &parts[..]].concat();
        assert_eq!(told(&arguments, 0), format!("{word}\n"));
    }
    let undefined = told(&["decode", "25207010", "0x25204000"], 2);
    assert_eq!(
        undefined,
        "25207010 PEXT size=8 first=0 portions=1 counter=8 pd=0\n\
         25204000 3: undefined: no layout, with its condition, matches\n"
    );
    wrong(&["decode"], "gighull decode: ");
    wrong(&["decode", "2520701"], "gighull decode: '2520701' ");
    wrong(
        &["decode", "25207010", "wörter"],
        "gighull decode: 'wörter' ",
    );
    wrong(&["encode"], "gighull encode: ");
    wrong(&["encode", "NOP"], "gighull encode: 'NOP' is no form");
    wrong(
        &["encode", "UQRSHRNB", "size=8"],
        "gighull encode: UQRSHRNB: field shift is missing",
    );
    let narrow = ["encode", "UQRSHRNB", "size=8", "shift=9", "zn=0", "zd=0"];
    let output = gighull(&narrow);
    assert_eq!(
        (output.status.code(), out(&output)),
        (Some(2), String::new())
    );
    let start = "gighull encode: UQRSHRNB: 9: a field given for writing a word is outside";
    assert!(complaint(&output).starts_with(start));
}

#[test]
fn conflict() {
    let words = any_stretch(&mut Random::new(74), FULL, 60);
    let mut found = [0; 2];
    for pair in words.windows(2) {
        let expected = reference::touch::conflict(FULL, pair[0], pair[1]).unwrap();
        let texts = [pair[0], pair[1]].map(|word| format!("{word:08x}"));
        let text = told(&["conflict", &texts[0], &texts[1]], 0);
        let yes = if expected {
            "conflict: yes\n"
        } else {
            "conflict: no\n"
        };
        assert!(text.starts_with(yes), "{text}");
        assert_eq!(text.lines().count(), 3 + usize::from(expected));
        found[usize::from(expected)] += 1;
    }
    assert!(found.iter().all(|&count| count > 5), "{found:?}");
    wrong(&["conflict", "25207010"], "gighull conflict: two words");
    wrong(
        &["conflict", "25207010", "x"],
        "gighull conflict: 'x' is no word",
    );
    // A word with a T reads what it writes.
    let text = told(&["conflict", "45282c22", "45282c62"], 0);
    assert_eq!(
        text,
        "conflict: yes\n\
         45282c22 SQRSHRNT size=8 shift=8 zn=1 zd=2: reads z1 and z2, writes z2\n\
         45282c62 SQRSHRNT size=8 shift=8 zn=3 zd=2: reads z3 and z2, writes z2\n\
         the first writes z2 and the second reads and writes it\n"
    );
    let output = gighull(&["conflict", "25207010", "00000000"]);
    assert_eq!(output.status.code(), Some(2));
    let said = "gighull conflict: 00000000: 3: undefined: no layout, with its condition, matches\n";
    assert_eq!(complaint(&output), said);
}

/// A reader that goes away is no error, and a full disk is one line.
#[test]
fn output_that_is_not_read() {
    let mut child = Command::new(env!("CARGO_BIN_EXE_gighull"))
        .args(["list", "/dev/zero"])
        .stdout(Stdio::piped())
        .stderr(Stdio::piped())
        .spawn()
        .unwrap();
    let mut start = [0; 10];
    child.stdout.take().unwrap().read_exact(&mut start).unwrap();
    assert_eq!(&start, b"00000000 U");
    let output = child.wait_with_output().unwrap();
    assert_eq!(
        (output.status.code(), complaint(&output)),
        (Some(0), String::new())
    );
    for arguments in [&["decode", "25207010"][..], &["list", "/dev/zero"]] {
        let full = fs::OpenOptions::new()
            .write(true)
            .open("/dev/full")
            .unwrap();
        let output = Command::new(env!("CARGO_BIN_EXE_gighull"))
            .args(arguments)
            .stdout(full)
            .output()
            .unwrap();
        assert_eq!(output.status.code(), Some(1));
        assert!(complaint(&output).starts_with("gighull: standard output: "));
    }
}
