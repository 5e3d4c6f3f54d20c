//! A program as a test calls it. This page is a module of test files in more
//! than one package.

use std::process::{Command, Output};

pub fn called(program: &str, arguments: &[&str]) -> Output {
    Command::new(program).args(arguments).output().unwrap()
}

pub fn text(bytes: &[u8]) -> String {
    String::from_utf8(bytes.to_vec()).unwrap()
}

/// It complained in one line, and printed nothing else.
pub fn complained(output: &Output) -> bool {
    let one_line = text(&output.stderr).matches('\n').count() == 1;
    !output.status.success() && output.stdout.is_empty() && one_line
}
