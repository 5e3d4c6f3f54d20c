//! The program as it is called.

#[path = "../../called/mod.rs"]
mod called;

use std::process::Output;

use called::{called, complained, text};

fn compare(arguments: &[&str]) -> Output {
    called(env!("CARGO_BIN_EXE_compare"), arguments)
}

#[test]
fn all_kinds_without_a_difference() {
    let output = compare(&["all", "--seed", "2", "--count", "3000"]);
    let report = text(&output.stdout);
    assert!(output.status.success(), "{report}");
    for kind in compare::case::Kind::ALL {
        let line = format!("\n{}: ", kind.name());
        assert!(report.contains(&line), "{report}");
    }
    assert!(!report.contains("DIFFERENCE"), "{report}");
}

/// The same cases on any number of threads.
#[test]
fn threads_change_nothing() {
    let answers = |threads| {
        let output = compare(&["step", "--count", "2000", "--threads", threads]);
        let report = text(&output.stdout);
        let answers = report.rsplit_once("; answers ").unwrap().1;
        answers.rsplit_once(" (").unwrap().0.to_string()
    };
    assert_eq!(answers("1"), answers("3"));
}

#[test]
fn every_answer_of_a_step_comes() {
    let report = text(&compare(&["step", "--count", "20000"]).stdout);
    for number in 0..7 {
        assert!(report.contains(&format!("{number}: ")), "{report}");
    }
}

#[test]
fn every_answer_of_an_index_comes() {
    let report = text(&compare(&["index", "--count", "20000"]).stdout);
    let (_, answers) = report.split_once("; answers ").unwrap();
    let numbers: Vec<&str> = answers.split(": ").collect();
    assert_eq!(numbers.len(), 4, "{report}");
    for number in ["0: ", ", 1: ", ", 9: "] {
        assert!(answers.contains(number), "{report}");
    }
}

#[test]
fn a_part_of_the_sweep_counts_what_is_read() {
    let output = compare(&["sweep-decode", "--from", "c08a8000", "--to", "c08abfff"]);
    let report = text(&output.stdout);
    assert!(output.status.success(), "{report}");
    assert!(report.contains("16384 words from c08a8000"), "{report}");
    // i1 is 0 and the size 01 or 10; Zn and Zd are any.
    assert!(
        report.contains("features 31: PEXT1 0, PEXT2 0, PSEL 0, LUTI4C 512, LUTI4S 0, SQSHRUNB 0,"),
        "{report}"
    );
    // Three P registers of four bits each; SVE2p1 (2) will do, and so will SME (4).
    let output = compare(&["sweep-decode", "--from", "25244000", "--to", "25247fff"]);
    let report = text(&output.stdout);
    for (features, count) in [(0, 0), (1, 0), (3, 4096), (4, 4096), (31, 4096)] {
        let line = format!("features {features:>2}: PEXT1 0, PEXT2 0, PSEL {count}, LUTI4C 0,");
        assert!(report.contains(&line), "{line} in {report}");
    }
}

/// Each of the sixteen narrowing words is done in a part of the gate.
#[test]
fn every_narrowing_word_is_done() {
    let report = text(&compare(&["step", "--count", "20000"]).stdout);
    for name in reference::instruction::NARROW_NAMES {
        let (_, rest) = report.split_once(&format!(" {name} ")).unwrap();
        let digits = rest.split(|c: char| !c.is_ascii_digit()).next().unwrap();
        assert!(digits.parse::<u32>().unwrap() > 50, "{name} in {report}");
    }
}

#[test]
fn a_case_is_replayed_in_one_word_or_in_many() {
    let case = "decode vl=128 features=31 word=25207010 room=7";
    let output = compare(&["replay", case]);
    assert!(output.status.success());
    assert_eq!(
        text(&output.stdout),
        "decode: no difference, both answer 0\n"
    );
    let words: Vec<&str> = ["replay"].into_iter().chain(case.split(' ')).collect();
    assert_eq!(compare(&words).stdout, output.stdout);
}

#[test]
fn wrong_use_is_one_line_and_status_2() {
    for arguments in [
        &[][..],
        &["leap"],
        &["all", "--count"],
        &["all", "--count", "x"],
        &["all", "--threads", "0"],
        &["all", "--colour", "3"],
        &["sweep-decode", "--from", "2", "--to", "1"],
        &["replay"],
        &["replay", "decode vl=128"],
    ] {
        let output = compare(arguments);
        assert_eq!(output.status.code(), Some(2), "{arguments:?}");
        assert!(complained(&output), "{output:?}");
    }
}
