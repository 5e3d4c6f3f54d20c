//! `speedplot TABLE SVG`
//!
//! Draws the table that `leafspeed` prints (from a file, or `-` for standard
//! input) as an SVG file, which is written whole or not at all.

use std::ffi::{OsStr, OsString};
use std::io::Read;
use std::path::Path;
use std::process::ExitCode;

use gighull_cli::files;
use speed::fail;
use speed::ratio_plot::svg;
use speed::ratios::Ratios;

fn main() -> ExitCode {
    let arguments: Vec<OsString> = std::env::args_os().skip(1).collect();
    let [table, place] = &arguments[..] else {
        return fail(
            "speedplot",
            "usage: speedplot TABLE SVG (TABLE may be -)",
            2,
        );
    };
    match draw(table, Path::new(place)) {
        Ok(()) => ExitCode::SUCCESS,
        Err(problem) => fail("speedplot", &problem, 1),
    }
}

fn draw(table: &OsStr, place: &Path) -> Result<(), String> {
    let name = if table == "-" {
        OsStr::new("standard input")
    } else {
        table
    };
    let of_table = |problem: &dyn std::fmt::Display| format!("{}: {problem}", name.display());
    let text = read(table).map_err(|error| of_table(&error))?;
    let ratios = Ratios::parse(&text).map_err(|problem| of_table(&problem))?;
    if files::same(Path::new(table), place) {
        return Err(of_table(&"the plot would be written over the table"));
    }
    files::write(&[(place, svg(&ratios))]).map_err(|failure| failure.to_string())
}

fn read(table: &OsStr) -> std::io::Result<String> {
    if table != "-" {
        return std::fs::read_to_string(table);
    }
    let mut text = String::new();
    std::io::stdin().read_to_string(&mut text)?;
    Ok(text)
}
