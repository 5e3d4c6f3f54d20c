//! The binary itself: formats, wrong use, a reader that goes away.

use std::io::{Read, Write};
use std::process::{Child, Command, Output, Stdio};

use reference::conflict_questions;
use reference::lister::list;
use reference::permission_questions;
use reference::questions::generate;
use reference::run_questions;
use reference::samples::listing_words;
use reference::step_questions;
use reference::text::{
    ANSWER_BYTES, PERMISSION_ANSWER_BYTES, QUESTION_BYTES, RUN_ANSWER_BYTES, STEP_ANSWER_BYTES,
    STEP_QUESTION_BYTES, answer_line,
};

fn start(arguments: &[&str]) -> Child {
    Command::new(env!("CARGO_BIN_EXE_reference"))
        .args(arguments)
        .stdin(Stdio::piped())
        .stdout(Stdio::piped())
        .stderr(Stdio::piped())
        .spawn()
        .unwrap()
}

fn run(arguments: &[&str], input: &[u8]) -> Output {
    let mut child = start(arguments);
    let mut pipe = child.stdin.take().unwrap();
    let input = input.to_vec();
    let feeder = std::thread::spawn(move || {
        // A program that stops early does not read it all.
        let _ = pipe.write_all(&input);
    });
    let output = child.wait_with_output().unwrap();
    feeder.join().unwrap();
    output
}

#[test]
fn questions_and_answers() {
    let questions = run(&["questions", "5"], b"");
    assert!(questions.status.success());
    assert_eq!(questions.stdout.len(), generate(5).len() * QUESTION_BYTES);
    let answers = run(&["answers"], &questions.stdout);
    assert!(answers.status.success());
    assert!(answers.stderr.is_empty());
    let expected: String = generate(5)
        .iter()
        .map(|question| answer_line(&question.answer()))
        .collect();
    assert_eq!(answers.stdout.len(), generate(5).len() * ANSWER_BYTES);
    assert_eq!(answers.stdout, expected.as_bytes());
}

fn answers_of(answers: impl Iterator<Item = impl AsRef<[u32]>>) -> String {
    answers.map(|answer| answer_line(answer.as_ref())).collect()
}

/// All kinds in one input: each line is answered as its kind asks.
#[test]
fn every_kind_of_question() {
    let steps = step_questions::generate(5);
    let conflicts = conflict_questions::generate(5);
    let runs = run_questions::generate(5);
    let permissions = permission_questions::generate(5);
    let printed = [
        "step-questions",
        "questions",
        "conflict-questions",
        "run-questions",
        "permitted-questions",
    ]
    .map(|command| run(&[command, "5"], b"").stdout);
    assert_eq!(printed[0].len(), steps.len() * STEP_QUESTION_BYTES);
    assert_eq!(printed[2].len(), conflicts.len() * QUESTION_BYTES);
    let expected = [
        answers_of(steps.iter().map(|question| question.answer())),
        answers_of(generate(5).iter().map(|question| question.answer())),
        answers_of(conflicts.iter().map(|question| question.answer())),
        answers_of(runs.iter().map(|question| question.answer())),
        answers_of(permissions.iter().map(|question| question.answer())),
    ];
    assert_eq!(expected[3].len(), runs.len() * RUN_ANSWER_BYTES);
    assert_eq!(
        expected[4].len(),
        permissions.len() * PERMISSION_ANSWER_BYTES
    );
    let answers = run(&["answers"], &printed.concat());
    assert!(answers.status.success());
    assert_eq!(answers.stdout, expected.concat().as_bytes());
}

/// A step whose files are all empty leaves three hashes of nothing, and is
/// refused with 2; one with a closed flag leaves PC alone.
#[test]
fn a_step_to_the_letter() {
    let question = "00000007 00000080 0000001f 25207010 00000005 00000001 00000002 00000003 \
                    00000004 ffffffff fffffffc 00000000 00000000 00000000 00000000 00000000 \
                    ffffffff 00000000 ffffffff 00000000\n";
    let nothing = "cbf29ce4 84222325";
    let expected = format!(
        "00000002 00000001 00000002 00000003 00000004 ffffffff fffffffc 00000005 \
         {nothing} {nothing} {nothing}\n"
    );
    assert_eq!(question.len(), STEP_QUESTION_BYTES);
    assert_eq!(expected.len(), STEP_ANSWER_BYTES);
    let answers = run(&["answers"], question.as_bytes());
    assert_eq!(String::from_utf8(answers.stdout).unwrap(), expected);
    // With files of the right lengths it is done, and PC wraps.
    let lengths = "00002000 00000200 00000040";
    let question = question.replace(
        "00000000 00000000 00000000 ffffffff",
        &format!("{lengths} ffffffff"),
    );
    let answers = run(&["answers"], question.as_bytes());
    let answer = String::from_utf8(answers.stdout).unwrap();
    let start = "00000000 00000001 00000002 00000003 00000004 00000000 00000000 00000005 ";
    assert!(answer.starts_with(start), "{answer}");
}

/// A run whose second word is refused, since V is closed: PC wraps before it.
#[test]
fn a_run_to_the_letter() {
    let head = "00000009 00000080 0000001f 00000006 00000001 00000002 00000003 00000004 ffffffff \
                fffffffc 00000000 00000000 00002000 00000200 00000040 \
                ffffffff 00000000 ffffffff 00000000";
    let question = format!("{head} 00000003 c08a9000 25207010 c08a9000\n");
    let answers = run(&["answers"], question.as_bytes());
    let answer = String::from_utf8(answers.stdout).unwrap();
    let start = "00000004 00000001 00000001 00000002 00000003 00000004 00000000 00000000 00000006 ";
    assert!(answer.starts_with(start), "{answer}");
    assert_eq!(answer.len(), RUN_ANSWER_BYTES);
    // What it leaves is what its first word leaves, and a step of it.
    let one = format!("{head} 00000001 c08a9000\n");
    let step = one
        .replace(
            "00000009 00000080 0000001f",
            "00000007 00000080 0000001f c08a9000",
        )
        .replace(" 00000001 c08a9000\n", "\n");
    let answers = run(&["answers"], (one + &step).as_bytes());
    let answers = String::from_utf8(answers.stdout).unwrap();
    let lines: Vec<&str> = answers.lines().collect();
    assert_eq!(lines[0][..18], *"00000000 00000001 ");
    assert_eq!(lines[0][18..], answer[18..answer.len() - 1]);
    assert_eq!(lines[1], format!("00000000 {}", &lines[0][18..]));
}

#[test]
fn permissions_to_the_letter() {
    let zeros = "00000000 00000000 00000000 00000000";
    let free = "25207010 25207011";
    let head = |words, order| format!("0000000a 00000080 0000001f {words} {order} {zeros}");
    let questions = [
        head("00000000", "00000000") + "\n",
        head("00000002", "00000002") + &format!(" {free} 00000001 00000000\n"),
        head("00000002", "00000002") + &format!(" {free} 00000001 00000001\n"),
        head("00000002", "00000001") + &format!(" {free} 00000000\n"),
        head("00000002", "00000002") + " 25207010 25207010 00000001 00000000\n",
        head("00000001", "00000001") + " 25204000 00000000\n",
    ];
    let answers = run(&["answers"], questions.concat().as_bytes());
    let expected = "00000000 00000001\n00000000 00000001\n00000000 00000000\n\
                    00000000 00000000\n00000000 00000000\n00000003 00000000\n";
    assert_eq!(String::from_utf8(answers.stdout).unwrap(), expected);
}

/// Lines written out by hand.
#[test]
fn answers_to_the_letter() {
    let zeros = " 00000000".repeat(5);
    let questions = format!(
        "00000000 00000080 0000001f 25e04000{zeros}\n\
         00000000 00000080 0000001f 45283441{zeros}\n\
         0000000b 00000080 0000001f 0000000e 00000008 00000008 00000000 00000000 00000000\n\
         0000000b 00000080 0000001f 0000000e 00000008 00000009 00000000 00000000 00000000\n\
         0000000b 00000080 00000000 00000010 00000008 00000008 00000000 00000000 00000000\n\
         00000006 00000080 0000001f 00000008 00000003 00000001 00000002 00000000 00000000\n\
         00000006 00000080 00000000 00000008 00000003 00000001 00000002 00000000 ffffffff\n\
         00000006 00000080 00000002 00000008 00000003 00000001 00000002 00000000 00000000\n\
         00000005 00000080 0000000f 00000010 00000000 00000000 00000010 00000000 00000000\n\
         00000000 00010080 0000001f 25e04000{zeros}\n\
         00000000 00000080 0000001f 2520741f{zeros}\n\
         00000000 00000080 00000003 25e072b6{zeros}\n\
         0000000c 00000080 0000001f 00000008 00000000 00000002 00000008 0000000f 00000000\n\
         0000000c 00000080 0000001f 00000040 00000002 00000001 0000000d 00000006 00000000\n\
         0000000c 00000080 0000001f 00000008 00000001 00000002 00000008 0000000f 00000000\n\
         0000000c 00000080 00000000 00000008 00000000 00000003 00000008 0000000f 00000000\n\
         0000000c 00000080 00000000 00000008 00000000 00000002 00000008 0000000f 00000000\n\
         0000000c 00000080 00000002 00000008 00000004 00000001 00000008 0000000f 00000000\n\
         00000001 00000080 0000001f 00000008 00000000 00000008 00000000 00000000 00000000\n\
         00000002 00000080 00000000 00000008 00000000 00000008 0000000f 00000000 ffffffff\n\
         00000002 00000081 0000001f 00000008 00000000 00000002 00000008 0000000f 00000000\n"
    );
    let none = " 00000000".repeat(7);
    let expected = format!(
        "00000000 00000003 00000040 00000001 0000000c 00000000 00000000 00000000\n\
         00000000 00000007 0000000d 00000008 00000008 00000002 00000001 00000000\n\
         00000000 45283800 00000000 00000000 00000000 00000000 00000000 00000000\n\
         00000009{none}\n\
         00000009{none}\n\
         00000009{none}\n\
         00000009{none}\n\
         00000001{none}\n\
         00000003{none}\n\
         00000001{none}\n\
         00000000 00000008 00000008 00000000 00000002 00000008 0000000f 00000000\n\
         00000000 00000008 00000040 00000002 00000001 0000000d 00000006 00000000\n\
         00000000 2520741f 00000000 00000000 00000000 00000000 00000000 00000000\n\
         00000000 25e072b6 00000000 00000000 00000000 00000000 00000000 00000000\n\
         00000009{none}\n\
         00000009{none}\n\
         00000003{none}\n\
         00000001{none}\n\
         00000009{none}\n\
         00000009{none}\n\
         00000001{none}\n"
    );
    let answers = run(&["answers"], questions.as_bytes());
    assert!(answers.status.success());
    assert_eq!(String::from_utf8(answers.stdout).unwrap(), expected);
}

#[test]
fn list_and_listing_words() {
    let words = run(&["listing-words", "9", "30001"], b"");
    assert!(words.status.success());
    let expected: Vec<u8> = listing_words(9, 30001)
        .flat_map(|word| word.to_le_bytes())
        .collect();
    assert_eq!(words.stdout, expected);
    for cut in 0..4 {
        let input = &expected[..expected.len() - cut];
        let listed = run(&["list"], input);
        assert!(listed.status.success());
        assert_eq!(listed.stdout, list(input));
    }
}

#[test]
fn wrong_use_is_one_line_and_a_status() {
    let wrong: [&[&str]; 16] = [
        &[],
        &["lst"],
        &["list", "more"],
        &["questions", "x"],
        &["questions", "1", "2"],
        &["questions", "-1"],
        &["step-questions", "x"],
        &["step-questions", "1", "2"],
        &["conflict-questions", "x"],
        &["conflict-question"],
        &["run-questions", "x"],
        &["permitted-questions", "1", "2"],
        &["permission-questions", "1"],
        &["listing-words", "1"],
        &["listing-words", "1", "18446744073709551616"],
        &["answers", "file"],
    ];
    for arguments in wrong {
        let output = run(arguments, b"");
        assert!(!output.status.success(), "{arguments:?}");
        assert!(output.stdout.is_empty());
        let line = String::from_utf8(output.stderr).unwrap();
        assert_eq!(line.matches('\n').count(), 1, "{line}");
        assert!(line.ends_with('\n') && line.starts_with("reference: "));
    }
}

#[test]
fn spoilt_questions_are_named() {
    let good = run(&["questions"], b"").stdout;
    let mut spoilt = good[..3 * QUESTION_BYTES].to_vec();
    spoilt[2 * QUESTION_BYTES + 4] = b'x';
    let cut = &good[..QUESTION_BYTES + 5];
    for (input, answered, place) in [(&spoilt[..], 2, "question 3:"), (cut, 1, "question 2:")] {
        let output = run(&["answers"], input);
        assert!(!output.status.success());
        assert_eq!(output.stdout.len(), answered * ANSWER_BYTES);
        let line = String::from_utf8(output.stderr).unwrap();
        assert!(line.contains(place), "{line}");
        assert_eq!(line.matches('\n').count(), 1);
    }
    // Cut where another question would be whole, and before the words.
    for (command, answer) in [
        ("step-questions", STEP_ANSWER_BYTES),
        ("run-questions", RUN_ANSWER_BYTES),
        ("permitted-questions", PERMISSION_ANSWER_BYTES),
    ] {
        let printed = run(&[command], b"").stdout;
        let first = 1 + printed.iter().position(|&byte| byte == b'\n').unwrap();
        for more in [QUESTION_BYTES, STEP_QUESTION_BYTES - 1] {
            let output = run(&["answers"], &printed[..first + more]);
            if command == "permitted-questions" && more > QUESTION_BYTES {
                continue;
            }
            assert!(!output.status.success());
            assert_eq!(output.stdout.len(), answer);
            let line = String::from_utf8(output.stderr).unwrap();
            assert!(line.contains("question 2:"), "{line}");
        }
    }
    // A list too long to be asked about is refused before it is waited for.
    let long = "0000000a 00000080 0000001f 00010001 00000000 00000000 00000000 00000000 00000000 ";
    let output = run(&["answers"], long.as_bytes());
    assert!(!output.status.success());
    let line = String::from_utf8(output.stderr).unwrap();
    assert!(line.contains("too long"), "{line}");
}

#[test]
fn a_reader_that_goes_away_causes_no_panic() {
    let endless: [&[&str]; 6] = [
        &["listing-words", "1", "100000000"],
        &["questions"],
        &["step-questions"],
        &["conflict-questions"],
        &["run-questions"],
        &["permitted-questions"],
    ];
    for arguments in endless {
        let mut child = start(arguments);
        let mut first = [0u8; 16];
        child
            .stdout
            .as_mut()
            .unwrap()
            .read_exact(&mut first)
            .unwrap();
        drop(child.stdout.take());
        let mut complaint = String::new();
        let mut stderr = child.stderr.take().unwrap();
        stderr.read_to_string(&mut complaint).unwrap();
        assert!(child.wait().unwrap().success(), "{arguments:?}");
        assert_eq!(complaint, "");
    }
}
