//! `compare COMMAND [--seed S] [--count N] [--threads T]`
//!
//! ```text
//! compare all             N cases of every kind
//! compare KIND            N cases of one: decode encode step run conflict permitted
//!                         vector predicate lines index
//! compare sweep-decode    all words under the twelve allowed feature numbers
//!                         [--from WORD] [--to WORD]
//! compare sweep-encode    every field in its range and just outside, all together
//! compare near            all words of the layouts, and those a fixed bit away
//! compare gate            a part of all of this, in less than a minute
//! compare replay CASE     one case, as it was printed
//! ```
//!
//! Puts the same questions to the proved library and to the reference. Where
//! they differ, prints the smallest case that it can find, to be replayed, and
//! ends with status 1. The same seed gives the same cases, on any number of
//! threads. Progress goes to stderr.

use std::io::{self, Write};
use std::process::ExitCode;
use std::time::Instant;

use compare::campaign::{Found, campaign};
use compare::case::{Case, Kind};
use compare::check::check;
use compare::draw::ALLOWED_FEATURES;
use compare::names;
use compare::sweep;
use gighull::ffi;

const USAGE: &str = "usage: compare all|KIND|sweep-decode|sweep-encode|near|gate [--seed S] \
                     [--count N] [--threads T] [--from WORD] [--to WORD], or compare replay CASE";

fn main() -> ExitCode {
    let arguments: Vec<String> = std::env::args().skip(1).collect();
    match command(&arguments) {
        Ok(()) => ExitCode::SUCCESS,
        Err(Problem::Differs) => ExitCode::FAILURE,
        Err(Problem::Broken(line)) => {
            let _ = writeln!(io::stderr(), "compare: {line}");
            ExitCode::from(2)
        }
    }
}

enum Problem {
    /// The two programs differ, and it has been said where.
    Differs,
    /// The comparison could not be done.
    Broken(String),
}

impl From<String> for Problem {
    fn from(line: String) -> Problem {
        Problem::Broken(line)
    }
}

impl From<io::Error> for Problem {
    fn from(error: io::Error) -> Problem {
        Problem::Broken(error.to_string())
    }
}

fn say(line: &str) -> Result<(), Problem> {
    let mut out = io::stdout();
    out.write_all(line.as_bytes())?;
    out.write_all(b"\n")?;
    Ok(out.flush()?)
}

fn command(arguments: &[String]) -> Result<(), Problem> {
    let (command, rest) = arguments.split_first().ok_or(USAGE.to_string())?;
    if command == "replay" {
        return replay(&rest.join(" "));
    }
    let options = Options::of(rest)?;
    // What panics on either side is told as a difference.
    std::panic::set_hook(Box::new(|_| {}));
    match command.as_str() {
        "all" => {
            say_archive()?;
            Kind::ALL
                .into_iter()
                .try_for_each(|kind| cases(kind, &options))
        }
        "sweep-decode" => {
            say_archive()?;
            sweep_decode(&options)
        }
        "sweep-encode" => {
            say_archive()?;
            sweep_encode(&options)
        }
        "near" => {
            say_archive()?;
            near(&options)
        }
        "gate" => gate(&options),
        _ => match Kind::from_name(command) {
            Some(kind) => {
                say_archive()?;
                cases(kind, &options)
            }
            None => Err(USAGE.to_string().into()),
        },
    }
}

struct Options {
    seed: u64,
    count: u64,
    threads: usize,
    from: u32,
    to: u32,
}

impl Options {
    fn of(arguments: &[String]) -> Result<Options, Problem> {
        let mut options = Options {
            seed: 1,
            count: 10_000,
            threads: 2,
            from: 0,
            to: u32::MAX,
        };
        for pair in arguments.chunks(2) {
            let [name, value] = pair else {
                return Err(format!("{} wants a value", pair[0]).into());
            };
            let wrong = || Problem::Broken(format!("{name} {value} is not a number"));
            match name.as_str() {
                "--seed" => options.seed = value.parse().map_err(|_| wrong())?,
                "--count" => options.count = value.parse().map_err(|_| wrong())?,
                "--threads" => options.threads = value.parse().map_err(|_| wrong())?,
                "--from" => options.from = u32::from_str_radix(value, 16).map_err(|_| wrong())?,
                "--to" => options.to = u32::from_str_radix(value, 16).map_err(|_| wrong())?,
                _ => return Err(USAGE.to_string().into()),
            }
        }
        if options.threads == 0 || options.from > options.to {
            return Err(USAGE.to_string().into());
        }
        Ok(options)
    }
}

/// Which archive this is linked with, so that figures can name it.
fn say_archive() -> Result<(), Problem> {
    say(&format!(
        "library: {} (FNV-1a {})",
        ffi::ARCHIVE,
        ffi::ARCHIVE_HASH
    ))
}

fn found(command: &str, found: &Found) -> Problem {
    let text = format!(
        "{command}: DIFFERENCE\n  {}\nsmallest case found:\n  {}\nto see it again:\n  compare replay '{}'",
        found.difference, found.smallest_difference, found.smallest
    );
    match say(&text) {
        Ok(()) => Problem::Differs,
        Err(problem) => problem,
    }
}

fn cases(kind: Kind, options: &Options) -> Result<(), Problem> {
    let name = kind.name();
    let Options {
        seed,
        count,
        threads,
        ..
    } = *options;
    let from = Instant::now();
    let tally = campaign(kind, seed, count, threads).map_err(|case| {
        found(
            &format!("{name}, case {} of seed {seed}", case.index),
            &case,
        )
    })?;
    say(&format!(
        "{name}: {count} cases of seed {seed}, no difference; {} ({:.0} s)",
        tally.shown(),
        from.elapsed().as_secs_f64()
    ))
}

fn accepted(accepted: &sweep::Accepted) -> Result<(), Problem> {
    for (features, counts) in ALLOWED_FEATURES.iter().zip(accepted) {
        let counts = names::shown(counts);
        say(&format!("  features {features:>2}: {counts}"))?;
    }
    Ok(())
}

fn sweep_decode(options: &Options) -> Result<(), Problem> {
    let Options { from, to, .. } = *options;
    let start = Instant::now();
    let counts =
        sweep::decode(from, to, options.threads).map_err(|case| found("sweep-decode", &case))?;
    let words = u64::from(to - from) + 1;
    say(&format!(
        "sweep-decode: {words} words from {from:08x} to {to:08x}, {} questions, no difference ({:.0} s)",
        words * ALLOWED_FEATURES.len() as u64,
        start.elapsed().as_secs_f64()
    ))?;
    accepted(&counts)
}

fn near(options: &Options) -> Result<(), Problem> {
    let start = Instant::now();
    let (words, _) = sweep::near(options.threads).map_err(|case| found("near", &case))?;
    say(&format!(
        "near: {words} words, {} questions, no difference ({:.0} s)",
        words * ALLOWED_FEATURES.len() as u64,
        start.elapsed().as_secs_f64()
    ))
}

fn sweep_encode(options: &Options) -> Result<(), Problem> {
    let start = Instant::now();
    let answers = sweep::encode(options.threads).map_err(|case| found("sweep-encode", &case))?;
    let shown: Vec<String> = (0..10)
        .filter(|&number| answers[number] > 0)
        .map(|number| format!("{number}: {}", answers[number]))
        .collect();
    say(&format!(
        "sweep-encode: {} questions, no difference; answers {} ({:.0} s)",
        answers.iter().sum::<u64>(),
        shown.join(", "),
        start.elapsed().as_secs_f64()
    ))
}

/// Every kind with its own count, and the sweeps that are short.
fn gate(options: &Options) -> Result<(), Problem> {
    say_archive()?;
    for (kind, count) in [
        (Kind::Decode, 400_000),
        (Kind::Encode, 400_000),
        (Kind::Step, 200_000),
        (Kind::Run, 4_000),
        (Kind::Conflict, 200_000),
        (Kind::Permitted, 40_000),
        (Kind::Vector, 20_000),
        (Kind::Predicate, 20_000),
        (Kind::Lines, 40_000),
        (Kind::Index, 400_000),
    ] {
        cases(kind, &Options { count, ..*options })?;
    }
    near(options)?;
    sweep_encode(options)?;
    say("gate: no difference")
}

fn replay(text: &str) -> Result<(), Problem> {
    let case = Case::parse(text)?;
    match check(&case) {
        Ok(agreed) => say(&format!(
            "{}: no difference, both answer {}",
            case.kind().name(),
            agreed.number
        )),
        Err(difference) => {
            say(&format!(
                "{}: DIFFERENCE\n  {difference}",
                case.kind().name()
            ))?;
            Err(Problem::Differs)
        }
    }
}
