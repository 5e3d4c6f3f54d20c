//! `believed [--list | --check FILE]`, from the repository's root: counts the definition lines that a
//! reader must believe, by crate. `HELP` says more.

mod definitions;
mod names;
mod promises;
mod reach;
mod report;

use std::fs;
use std::io::{self, Write};
use std::path::{Path, PathBuf};
use std::process::ExitCode;

use names::Files;
use reach::Reached;

const HELP: &str = "\
believed               a Markdown table: by crate the definition lines in specs/, those that a public
                       promise reaches, and of these those that a promise of the C interface, the
                       lister or the console reaches
believed --list        each definition: crate, file:line, name, lines, public (reached) or private
believed --check FILE  status 1 unless FILE, from the repository's root, has this table, and exactly
                       the definitions in the files specs/Private.antt are private
believed --help        this text

A public promise is the `ensures` and `requires` of a `pub fn` in a module that other crates see. It
reaches the definitions that it names, those that these name, and so on. Comments and blank lines
are not counted, nor what the kit or the code's own types define.";

fn main() -> ExitCode {
    let arguments: Vec<String> = std::env::args().skip(1).collect();
    let arguments: Vec<&str> = arguments.iter().map(String::as_str).collect();
    let answer = match arguments[..] {
        [] => count().map(|(crates, definitions)| report::table(&crates, &definitions)),
        ["--list"] => count().map(|(_, definitions)| report::list(&definitions)),
        ["--check", file] => check(file),
        ["--help"] => Ok(vec![HELP.to_string()]),
        _ => {
            eprintln!("believed: usage: believed [--list | --check FILE | --help]");
            return ExitCode::from(2);
        }
    };
    match answer {
        Ok(lines) => {
            for line in lines {
                let _ = writeln!(io::stdout(), "{line}");
            }
            ExitCode::SUCCESS
        }
        Err(problem) => {
            eprintln!("believed: {problem}");
            ExitCode::FAILURE
        }
    }
}

/// Says nothing where all is as it should be.
fn check(file: &str) -> Result<Vec<String>, String> {
    let (crates, definitions) = count()?;
    let text = read(Path::new(file))?;
    let mut problems = report::misplaced(&definitions);
    let table = report::table(&crates, &definitions);
    problems.extend(report::differs(&text, &table).map(|why| format!("{file}: {why}")));
    if problems.is_empty() {
        return Ok(Vec::new());
    }
    Err(problems.join("\nbelieved: "))
}

/// The crates in their order, and all definitions.
fn count() -> Result<(Vec<String>, Vec<Reached>), String> {
    let crates = crates_in(&read(Path::new("crates.txt"))?);
    let mut files = Files::new();
    for folder in entries(Path::new("crates"))? {
        if !crates.iter().any(|name| folder.ends_with(name)) {
            return Err(format!("{} is not in crates.txt", folder.display()));
        }
        // Not the proofs, and not the wrong programs of must-fail.
        collect(&folder.join("src"), &mut files)?;
        collect(&folder.join("specs"), &mut files)?;
    }
    let definitions = reach::reached(&crates, &files)?;
    Ok((crates, definitions))
}

/// The names in crates.txt, whose lines are `NAME: DEP DEP ..`, or `NAME staticlib: DEP ..`.
fn crates_in(text: &str) -> Vec<String> {
    let lines = text.lines().filter(|line| !line.starts_with('#'));
    lines
        .filter_map(|line| Some(line.split_once(':')?.0.split_whitespace().next()?.to_string()))
        .collect()
}

/// Reads the code and the definitions below a folder, if it is there.
fn collect(folder: &Path, files: &mut Files) -> Result<(), String> {
    if !folder.exists() {
        return Ok(());
    }
    for path in entries(folder)? {
        if path.is_dir() {
            collect(&path, files)?;
        } else if path
            .extension()
            .is_some_and(|kind| kind == "rt" || kind == "antt")
        {
            files.insert(path.display().to_string(), read(&path)?);
        }
    }
    Ok(())
}

fn entries(folder: &Path) -> Result<Vec<PathBuf>, String> {
    let unread = |why| format!("{}: {why}", folder.display());
    let entries = fs::read_dir(folder).map_err(unread)?;
    entries
        .map(|entry| Ok(entry.map_err(unread)?.path()))
        .collect()
}

fn read(path: &Path) -> Result<String, String> {
    fs::read_to_string(path).map_err(|why| format!("{}: {why}", path.display()))
}
