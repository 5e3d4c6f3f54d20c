//! The reference program on the command line.

use std::io::{self, BufReader, BufWriter, Read, Write};
use std::process::ExitCode;

use reference::conflict_questions;
use reference::lister::list_stream;
use reference::permission_questions;
use reference::questions::{self, DEFAULT_SEED};
use reference::run_questions;
use reference::samples::listing_words;
use reference::step_questions;
use reference::text::{
    self, answer_line, permission_question_line, question_line, run_question_line,
    step_question_line,
};

const USAGE: &str = "usage: reference list | questions [SEED] | step-questions [SEED] \
                     | conflict-questions [SEED] | run-questions [SEED] \
                     | permitted-questions [SEED] | answers | listing-words SEED COUNT";

enum Failure {
    /// Called in a wrong way.
    Use(String),
    /// Questions that cannot be read.
    Input(String),
    Io(io::Error),
}

impl From<io::Error> for Failure {
    fn from(error: io::Error) -> Failure {
        Failure::Io(error)
    }
}

fn main() -> ExitCode {
    // Not `args`, which panics on an argument that is not Unicode.
    let arguments: Vec<String> = std::env::args_os()
        .skip(1)
        .map(|argument| argument.to_string_lossy().into_owned())
        .collect();
    let mut output = BufWriter::with_capacity(64 * 1024, io::stdout().lock());
    let result = run(&arguments, &mut output);
    // What was answered before a failure is still given out.
    let flushed = output.flush().map_err(Failure::Io);
    match result.and(flushed) {
        Ok(()) => ExitCode::SUCCESS,
        Err(Failure::Use(line)) => complain(&line, 2),
        Err(Failure::Input(line)) => complain(&line, 1),
        // The reader has seen enough; that is no failure of ours.
        Err(Failure::Io(error)) if error.kind() == io::ErrorKind::BrokenPipe => ExitCode::SUCCESS,
        Err(Failure::Io(error)) => complain(&error.to_string(), 1),
    }
}

/// One line on stderr. Not `eprintln!`, which panics where stderr is closed.
fn complain(line: &str, status: u8) -> ExitCode {
    let _ = writeln!(io::stderr(), "reference: {line}");
    ExitCode::from(status)
}

fn run(arguments: &[String], output: &mut impl Write) -> Result<(), Failure> {
    let arguments: Vec<&str> = arguments.iter().map(String::as_str).collect();
    match arguments[..] {
        ["list"] => Ok(list_stream(&mut io::stdin().lock(), output)?),
        ["answers"] => print_answers(&mut BufReader::new(io::stdin().lock()), output),
        ["listing-words", seed, count] => print_words(number(seed)?, number(count)?, output),
        [name] => print_questions(question_command(name)?, DEFAULT_SEED, output),
        [name, seed] => print_questions(question_command(name)?, number(seed)?, output),
        _ => Err(Failure::Use(USAGE.to_string())),
    }
}

fn number(text: &str) -> Result<u64, Failure> {
    text.parse()
        .map_err(|_| Failure::Use(format!("{text:?} is not a number from 0 to 2^64 - 1")))
}

/// The commands that print questions, each with the lines for a seed.
type Lines = fn(u64) -> Vec<String>;
const QUESTION_COMMANDS: [(&str, Lines); 5] = [
    ("questions", |seed| {
        lines(&questions::generate(seed), question_line)
    }),
    ("step-questions", |seed| {
        lines(&step_questions::generate(seed), step_question_line)
    }),
    ("conflict-questions", |seed| {
        lines(&conflict_questions::generate(seed), question_line)
    }),
    ("run-questions", |seed| {
        lines(&run_questions::generate(seed), run_question_line)
    }),
    ("permitted-questions", |seed| {
        lines(
            &permission_questions::generate(seed),
            permission_question_line,
        )
    }),
];

fn lines<Q>(questions: &[Q], line: fn(&Q) -> String) -> Vec<String> {
    questions.iter().map(line).collect()
}

fn question_command(name: &str) -> Result<Lines, Failure> {
    QUESTION_COMMANDS
        .into_iter()
        .find(|(command, _)| *command == name)
        .map(|(_, lines)| lines)
        .ok_or(Failure::Use(USAGE.to_string()))
}

fn print_questions(lines: Lines, seed: u64, output: &mut impl Write) -> Result<(), Failure> {
    for line in lines(seed) {
        output.write_all(line.as_bytes())?;
    }
    Ok(())
}

fn print_answers(input: &mut impl Read, output: &mut impl Write) -> Result<(), Failure> {
    let mut count = 0u64;
    while let Some(line) = next_line(input, count + 1)? {
        count += 1;
        let answer = answer_to(&line)
            .map_err(|problem| Failure::Input(format!("question {count}: {problem}")))?;
        output.write_all(answer.as_bytes())?;
    }
    Ok(())
}

/// The answer's line for a question's line.
fn answer_to(line: &[u8]) -> Result<String, String> {
    Ok(match text::kind_of(line)? {
        text::STEP_KIND => answer_line(&text::read_step_question(line)?.answer()),
        text::RUN_KIND => answer_line(&text::read_run_question(line)?.answer()),
        text::PERMISSION_KIND => answer_line(&text::read_permission_question(line)?.answer()),
        _ => answer_line(&text::read_question(line)?.answer()),
    })
}

/// The next question's bytes; those read already say how many they are.
fn next_line(input: &mut impl Read, place: u64) -> Result<Option<Vec<u8>>, Failure> {
    let problem = |what: String| Failure::Input(format!("question {place}: {what}"));
    let mut line = Vec::new();
    loop {
        let held = line.len();
        let known = text::question_bytes(&line).map_err(problem)?;
        if held == known {
            return Ok(Some(line));
        }
        line.resize(known, 0);
        match held + fill(input, &mut line[held..])? {
            0 => return Ok(None),
            now if now < known => return Err(problem("the input ends inside it".to_string())),
            _ => {}
        }
    }
}

/// Reads until the buffer is full or the input ends, and says how much.
fn fill(input: &mut impl Read, buffer: &mut [u8]) -> io::Result<usize> {
    let mut held = 0;
    while held < buffer.len() {
        match input.read(&mut buffer[held..]) {
            Ok(0) => break,
            Ok(got) => held += got,
            Err(error) if error.kind() == io::ErrorKind::Interrupted => {}
            Err(error) => return Err(error),
        }
    }
    Ok(held)
}

fn print_words(seed: u64, count: u64, output: &mut impl Write) -> Result<(), Failure> {
    for word in listing_words(seed, count) {
        output.write_all(&word.to_le_bytes())?;
    }
    Ok(())
}
