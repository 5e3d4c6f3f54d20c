//! What lessons and commands said before DUP became PSEL: one line says what is
//! to be written now, and nothing is done.

mod support;

use std::fs;

use support::{complaint, folder, gighull_in, names_in, out, told, wrong};

const FIELDS: &str = "size, offset, index, pn (copied whole), pm (has the element), pd";

/// A word by its old name or fields, and what is said of it.
fn old() -> Vec<(&'static str, String)> {
    let dup = format!("DUP is PSEL now, another operation: write PSEL with the fields {FIELDS}");
    let no_field = format!("PSEL has no field 'pg': {FIELDS}");
    let missing = format!("PSEL: field pm is missing: {FIELDS}");
    vec![
        ("DUP size=16 offset=1 index=13 pg=1 pn=3 pd=2", dup.clone()),
        ("dup size=16 offset=1 index=13 pn=1 pm=3 pd=2", dup.clone()),
        ("Dup", dup),
        (
            "PSEL size=16 offset=1 index=13 pg=1 pn=3 pd=2",
            no_field.clone(),
        ),
        ("psel size=16 offset=1 index=13 pn=3 pd=2 pg=1", no_field),
        ("PSEL size=16 offset=1 index=13 pn=3 pd=2", missing.clone()),
        ("psel pd=2 pn=3 index=13 offset=1 size=16", missing),
    ]
}

#[test]
fn commands_refuse_it() {
    for (text, line) in old() {
        let parts: Vec<&str> = text.split(' ').collect();
        let encode = [&["encode"], &parts[..]].concat();
        wrong(&encode, &format!("gighull encode: {line}\n"));
        let line = format!("gighull conflict: {line}\n");
        wrong(&["conflict", text, "25207010"], &line);
        wrong(&["conflict", "25207010", text], &line);
    }
}

#[test]
fn lessons_with_it_are_refused() {
    let folder = folder("old-names");
    let options = ["--save", "saved.lesson", "--plot", "p2.b", "curve.svg"];
    for (text, line) in old() {
        fs::write(
            folder.join("old.lesson"),
            format!("vl 128\n{text}  # old\nend\n"),
        )
        .unwrap();
        let output = gighull_in(&folder, &[&["run", "old.lesson"], &options[..]].concat());
        assert_eq!(complaint(&output), format!("old.lesson:2: {line}\n"));
        assert_eq!(output.status.code(), Some(1), "{text}");
        assert_eq!(out(&output), "");
        assert_eq!(names_in(&folder), ["old.lesson"]);
    }
}

/// PSEL by its fields, in either case, and what it touches.
#[test]
fn the_word_in_its_place() {
    let fields = ["size=16", "offset=1", "index=13", "pn=1", "pm=3", "pd=2"];
    for name in ["PSEL", "psel"] {
        let encode = [&["encode", name], &fields[..]].concat();
        assert_eq!(told(&encode, 0), "25394462\n");
    }
    let text = told(&["conflict", "25394462", "25207010"], 0);
    let line = "25394462 PSEL size=16 offset=1 index=13 pn=1 pm=3 pd=2: \
                reads p1, p3 and w13, writes p2\n";
    assert!(text.contains(line), "{text}");
}
