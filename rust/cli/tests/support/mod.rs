//! What the tests share. Each test program uses a part of it.
#![allow(dead_code)]

pub mod by_reference;
pub mod told;

use std::fs;
use std::path::{Path, PathBuf};
use std::process::{Command, Output};

pub const ROOT: &str = concat!(env!("CARGO_MANIFEST_DIR"), "/../..");
pub const LESSONS: [&str; 6] = ["diode", "counters", "order", "signed", "psel", "adder"];

/// The command, from the repository's root, where lessons have short names.
pub fn gighull(arguments: &[&str]) -> Output {
    gighull_in(Path::new(ROOT), arguments)
}

pub fn gighull_in(folder: &Path, arguments: &[&str]) -> Output {
    Command::new(env!("CARGO_BIN_EXE_gighull"))
        .args(arguments)
        .current_dir(folder)
        .output()
        .expect("the command is built")
}

pub fn out(output: &Output) -> String {
    String::from_utf8(output.stdout.clone()).expect("it prints text")
}

/// What it prints; it must end with that status and without a complaint.
pub fn told(arguments: &[&str], status: i32) -> String {
    let output = gighull(arguments);
    assert_eq!(complaint(&output), "", "{arguments:?}");
    assert_eq!(output.status.code(), Some(status), "{arguments:?}");
    out(&output)
}

/// What a lesson with this text prints, run in the folder; it must end with that
/// status and without a complaint.
pub fn told_of(folder: &Path, text: &str, options: &[&str], status: i32) -> String {
    fs::write(folder.join("some.lesson"), text).unwrap();
    let output = gighull_in(folder, &[&["run", "some.lesson"], options].concat());
    assert_eq!(complaint(&output), "", "{text}");
    assert_eq!(output.status.code(), Some(status), "{text}");
    out(&output)
}

pub fn complaint(output: &Output) -> String {
    String::from_utf8(output.stderr.clone()).expect("it complains in text")
}

/// Wrong input: one line that begins so, status 1, and nothing else.
pub fn wrong(arguments: &[&str], start: &str) {
    let output = gighull(arguments);
    let said = complaint(&output);
    assert_eq!(output.status.code(), Some(1), "{arguments:?}: {said}");
    assert!(output.stdout.is_empty(), "{arguments:?}");
    assert_eq!(said.matches('\n').count(), 1, "{said}");
    assert!(said.starts_with(start), "{said}");
}

/// A new and empty folder for a test.
pub fn folder(name: &str) -> PathBuf {
    let folder = Path::new(env!("CARGO_TARGET_TMPDIR")).join(name);
    let _ = fs::remove_dir_all(&folder);
    fs::create_dir_all(&folder).unwrap();
    folder
}

pub fn names_in(folder: &Path) -> Vec<String> {
    let entries = fs::read_dir(folder).unwrap();
    let name = |entry: std::io::Result<fs::DirEntry>| entry.unwrap().file_name();
    let mut names: Vec<String> = entries
        .map(|entry| name(entry).into_string().unwrap())
        .collect();
    names.sort();
    names
}

pub fn lesson_text(name: &str) -> String {
    fs::read_to_string(Path::new(ROOT).join(format!("lessons/{name}.lesson"))).unwrap()
}
