//! `listspeed PROVED_LISTER FAST_LISTER INPUT_FILE [ROUNDS]`
//!
//! First runs both listers and compares what they print. Then times them on
//! the same file, standard output to /dev/null: one run each to warm up, then
//! rounds with one run of each, the one that goes first changing from round to
//! round. A run is timed from start to end of the process, so the file should
//! be large against that.

use std::ffi::{OsStr, OsString};
use std::fs::File;
use std::io::{self, Read, Write};
use std::process::{Child, Command, ExitCode, Stdio};
use std::time::Instant;

use speed::{fail, first_difference, minimum_and_median, shown};

const USAGE: &str = "usage: listspeed PROVED_LISTER FAST_LISTER INPUT_FILE [ROUNDS]";
const DEFAULT_ROUNDS: usize = 15;

fn main() -> ExitCode {
    let arguments: Vec<OsString> = std::env::args_os().skip(1).collect();
    let (proved, fast, input, rounds) = match &arguments[..] {
        [proved, fast, input] => (proved, fast, input, DEFAULT_ROUNDS),
        [proved, fast, input, rounds] => match rounds.to_str().and_then(|r| r.parse().ok()) {
            Some(rounds) if rounds > 0 => (proved, fast, input, rounds),
            _ => return fail("listspeed", "ROUNDS is not a number above 0", 2),
        },
        _ => return fail("listspeed", USAGE, 2),
    };
    match compare_and_time(proved, fast, input, rounds) {
        Ok(report) => match io::stdout().write_all(report.as_bytes()) {
            Ok(()) => ExitCode::SUCCESS,
            Err(error) => fail("listspeed", &error.to_string(), 1),
        },
        Err(problem) => fail("listspeed", &problem, 1),
    }
}

fn compare_and_time(
    proved: &OsStr,
    fast: &OsStr,
    input: &OsStr,
    rounds: usize,
) -> Result<String, String> {
    let bytes = compare_outputs(proved, fast, input)?;
    time_once(proved, input)?;
    time_once(fast, input)?;
    let mut proved_times = Vec::new();
    let mut fast_times = Vec::new();
    for round in 0..rounds {
        if round % 2 == 0 {
            proved_times.push(time_once(proved, input)?);
            fast_times.push(time_once(fast, input)?);
        } else {
            fast_times.push(time_once(fast, input)?);
            proved_times.push(time_once(proved, input)?);
        }
    }
    let (proved_min, proved_median) = minimum_and_median(&mut proved_times);
    let (fast_min, fast_median) = minimum_and_median(&mut fast_times);
    let ratio = proved_median / fast_median;
    Ok(format!(
        "outputs equal: {bytes} bytes; {rounds} rounds\n\
         proved: minimum {proved_min:.6} s, median {proved_median:.6} s\n\
         fast:   minimum {fast_min:.6} s, median {fast_median:.6} s\n\
         ratio of medians proved/fast: {ratio:.3}\n"
    ))
}

/// Both outputs are read side by side, a part of each at a time. Gives their
/// length.
fn compare_outputs(proved: &OsStr, fast: &OsStr, input: &OsStr) -> Result<u64, String> {
    let mut first = start(proved, input, Stdio::piped())?;
    let mut second = match start(fast, input, Stdio::piped()) {
        Ok(child) => child,
        Err(problem) => {
            stop(&mut first);
            return Err(problem);
        }
    };
    let result = compare_side_by_side(&mut first, &mut second);
    if result.is_err() {
        stop(&mut first);
        stop(&mut second);
    }
    let length = result?;
    finish(proved, &mut first)?;
    finish(fast, &mut second)?;
    Ok(length)
}

fn compare_side_by_side(first: &mut Child, second: &mut Child) -> Result<u64, String> {
    const PART: u64 = 64 * 1024;
    let mut first_output = first.stdout.take().expect("the output is piped");
    let mut second_output = second.stdout.take().expect("the output is piped");
    let mut length = 0u64;
    let mut lines = 0;
    // The start of the last line, where a part ended inside one.
    let mut line_start = Vec::new();
    loop {
        let mut first_part = line_start.clone();
        let mut second_part = line_start.clone();
        read_part(&mut first_output, PART, &mut first_part)?;
        read_part(&mut second_output, PART, &mut second_part)?;
        if let Some(difference) = first_difference(&first_part, &second_part) {
            return Err(format!(
                "the outputs differ in line {}: proved {}, fast {}",
                lines + difference.line,
                shown(&difference.expected),
                shown(&difference.found)
            ));
        }
        let got = (first_part.len() - line_start.len()) as u64;
        if got == 0 {
            return Ok(length);
        }
        length += got;
        lines += first_part.iter().filter(|&&byte| byte == b'\n').count();
        let after_newline = first_part
            .iter()
            .rposition(|&byte| byte == b'\n')
            .map_or(0, |place| place + 1);
        line_start = first_part.split_off(after_newline);
    }
}

/// Just `part` bytes more, or fewer where the output ends.
fn read_part(output: &mut impl Read, part: u64, bytes: &mut Vec<u8>) -> Result<(), String> {
    output
        .take(part)
        .read_to_end(bytes)
        .map(|_| ())
        .map_err(|error| format!("an output cannot be read: {error}"))
}

fn time_once(lister: &OsStr, input: &OsStr) -> Result<f64, String> {
    let begin = Instant::now();
    let mut child = start(lister, input, Stdio::null())?;
    finish(lister, &mut child)?;
    Ok(begin.elapsed().as_secs_f64())
}

fn start(lister: &OsStr, input: &OsStr, output: Stdio) -> Result<Child, String> {
    let file = File::open(input).map_err(|error| format!("{}: {error}", input.display()))?;
    Command::new(lister)
        .stdin(file)
        .stdout(output)
        .spawn()
        .map_err(|error| format!("{}: {error}", lister.display()))
}

fn finish(lister: &OsStr, child: &mut Child) -> Result<(), String> {
    match child.wait() {
        Ok(status) if status.success() => Ok(()),
        Ok(status) => Err(format!("{}: {status}", lister.display())),
        Err(error) => Err(format!("{}: {error}", lister.display())),
    }
}

/// Ends a lister that this program started and no longer listens to.
fn stop(child: &mut Child) {
    let _ = child.kill();
    let _ = child.wait();
}
