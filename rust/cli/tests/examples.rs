//! The examples in the help and in docs/LESSONS.md print what they say.

mod support;

use std::fs;
use std::path::Path;

use support::{ROOT, folder, gighull_in, out, told};

/// A command and the lines that follow it.
struct Example {
    command: String,
    lines: Vec<String>,
}

/// The blocks with this indentation that begin with `$`. A blank line is of
/// the output where an indented line follows that is no command.
fn examples(text: &str, indent: &str) -> Vec<Example> {
    let mut examples: Vec<Example> = Vec::new();
    let mut inside = false;
    let mut blank = 0;
    for line in text.lines() {
        let told = line.strip_prefix(indent);
        if let Some(command) = told.and_then(|told| told.strip_prefix("$ ")) {
            examples.push(Example {
                command: command.to_string(),
                lines: Vec::new(),
            });
            (inside, blank) = (true, 0);
        } else if inside && line.is_empty() {
            blank += 1;
        } else if let (true, Some(told)) = (inside, told) {
            let lines = &mut examples.last_mut().unwrap().lines;
            lines.extend((0..blank).map(|_| String::new()));
            lines.push(told.to_string());
            blank = 0;
        } else {
            inside = false;
        }
    }
    examples
}

/// The words of a command, those between quotes as one.
fn arguments(command: &str) -> Vec<&str> {
    let mut words = Vec::new();
    for (place, part) in command.split('\'').enumerate() {
        if place % 2 == 1 {
            words.push(part);
        } else {
            words.extend(part.split_whitespace());
        }
    }
    words
}

fn check(example: &Example, folder: &Path) {
    let words = arguments(&example.command);
    let output = gighull_in(folder, &words[1..]);
    assert_eq!(output.status.code(), Some(0), "{}", example.command);
    let found = out(&output);
    let expected = example.lines.join("\n");
    assert_eq!(found.trim_end(), expected, "{}", example.command);
}

#[test]
fn examples_of_the_help() {
    let text = told(&["--help"], 0);
    let examples = examples(&text, "  ");
    let mut checked = 0;
    for example in &examples {
        // Those without output are about lessons, which have their own tests;
        // the pipe is of the shell.
        if example.command.starts_with("gighull") && !example.lines.is_empty() {
            check(example, Path::new(ROOT));
            checked += 1;
        }
    }
    assert_eq!(checked, 4);
    assert_eq!(told(&["help"], 0), text);
    assert_eq!(told(&["decode", "-h"], 0), text);
}

#[test]
fn the_help_names_every_form() {
    let text = told(&["--help"], 0);
    let (_, forms) = text.split_once("\nForms and their fields").unwrap();
    let words: Vec<&str> = forms.split_whitespace().collect();
    for name in gighull_cli::lesson::way::names().split(", ") {
        assert!(words.contains(&name), "{name}");
    }
}

#[test]
fn the_small_lesson_of_the_help() {
    let text = told(&["run", "--help"], 0);
    let (_, whole) = text.split_once("A small lesson, whole:\n").unwrap();
    let lesson: Vec<&str> = (whole.lines().skip(1))
        .map_while(|line| line.strip_prefix("  "))
        .collect();
    assert_eq!(lesson.last(), Some(&"end"));
    let folder = folder("small");
    fs::write(folder.join("small.lesson"), lesson.join("\n")).unwrap();
    let examples = examples(&text, "  ");
    assert_eq!(examples.len(), 1);
    check(&examples[0], &folder);
}

#[test]
fn examples_of_the_lessons_page() {
    let text = fs::read_to_string(Path::new(ROOT).join("docs/LESSONS.md")).unwrap();
    let examples = examples(&text, "    ");
    let runs: Vec<&Example> = examples
        .iter()
        .filter(|example| !example.lines.is_empty())
        .collect();
    assert!(runs.len() >= 9, "{}", runs.len());
    for example in runs {
        check(example, Path::new(ROOT));
    }
}
