//! `listcheck LISTER [SEED]`
//!
//! Runs a lister on many inputs and compares what it prints, byte for byte,
//! with the reference. The inputs go from short to long, so the first that
//! fails is the smallest that does.

use std::ffi::{OsStr, OsString};
use std::fmt;
use std::fs::{self, File};
use std::io::{self, Read, Write};
use std::path::{Path, PathBuf};
use std::process::{Child, ChildStdin, Command, ExitCode, ExitStatus, Stdio};
use std::sync::mpsc;
use std::thread;
use std::time::{Duration, Instant};

use reference::lister::list;
use reference::random::Random;
use reference::samples::listing_words;
use speed::{fail, first_difference, shown};

const USAGE: &str = "usage: listcheck LISTER [SEED]";
const DEFAULT_SEED: u64 = 1;

/// A lister that takes longer than this for one input is taken to hang.
const PATIENCE: Duration = Duration::from_secs(10);

/// For a slow pipe: how long a lister is given to start, and to read a chunk.
const START_TIME: Duration = Duration::from_millis(2);
const PAUSE: Duration = Duration::from_micros(200);

/// The longest input.
const LONGEST: usize = 700 * 1024 + 3;

/// How far into its source an input may start; see `Source::part`.
const STARTS: usize = 4 * 1024;

fn main() -> ExitCode {
    let arguments: Vec<OsString> = std::env::args_os().skip(1).collect();
    let (lister, seed) = match &arguments[..] {
        [lister] => (lister, DEFAULT_SEED),
        [lister, seed] => match seed.to_str().and_then(|s| s.parse().ok()) {
            Some(seed) => (lister, seed),
            None => return fail("listcheck", "SEED is not a number", 2),
        },
        _ => return fail("listcheck", USAGE, 2),
    };
    match check(lister, seed) {
        Ok(count) => report(
            &format!("listcheck: {count} inputs, all equal\n"),
            ExitCode::SUCCESS,
        ),
        Err(Problem::Fails(text)) => report(&text, ExitCode::FAILURE),
        Err(Problem::Broken(line)) => fail("listcheck", &line, 2),
    }
}

fn report(text: &str, status: ExitCode) -> ExitCode {
    match io::stdout().write_all(text.as_bytes()) {
        Ok(()) => status,
        Err(error) => fail("listcheck", &error.to_string(), 2),
    }
}

enum Problem {
    /// The lister fails; in the end described with its input.
    Fails(String),
    /// The check itself could not be done.
    Broken(String),
}

/// How an input reaches the lister.
#[derive(Clone, Copy)]
enum Feed {
    File,
    /// Through a pipe, in chunks of these sizes by turns.
    Pipe(&'static [usize]),
    /// The same with pauses, so that the lister reads each chunk by itself
    /// and does not find them all in the pipe at once.
    SlowPipe(&'static [usize]),
}

impl fmt::Display for Feed {
    fn fmt(&self, out: &mut fmt::Formatter) -> fmt::Result {
        match self {
            Feed::File => write!(out, "as a file"),
            Feed::Pipe(sizes) => write!(out, "through a pipe in chunks of {sizes:?}"),
            Feed::SlowPipe(sizes) => {
                write!(out, "through a pipe slowly in chunks of {sizes:?}")
            }
        }
    }
}

fn check(lister: &OsStr, seed: u64) -> Result<usize, Problem> {
    let sources = sources(seed);
    let file = InputFile::new()?;
    let mut count = 0;
    for length in lengths() {
        for source in &sources {
            let input = source.part(length);
            let expected = list(input);
            file.hold(input)?;
            for &feed in feeds(length, source.varied) {
                count += 1;
                match run_once(lister, feed, &file.path, input, &expected) {
                    Err(Problem::Fails(how)) => {
                        let text = describe(input, source.name, feed, &how);
                        return Err(Problem::Fails(text));
                    }
                    other => other?,
                }
            }
        }
    }
    Ok(count)
}

/// In ascending order.
fn lengths() -> Vec<usize> {
    let mut lengths: Vec<usize> = (0..=40).collect();
    // Around the sizes that buffers are likely to have, and their multiples.
    for middle in [
        4096, 8192, 65_536, 65_538, 131_072, 131_076, 196_608, 196_614, 262_144,
    ] {
        lengths.extend(middle - 5..=middle + 5);
    }
    lengths.extend([399_999, 524_288, 524_289, LONGEST]);
    lengths.sort();
    lengths.dedup();
    lengths
}

/// Inputs that are one byte over and over are given in fewer ways.
fn feeds(length: usize, varied: bool) -> &'static [Feed] {
    const SMALL: &[Feed] = &[
        Feed::File,
        Feed::Pipe(&[1]),
        Feed::Pipe(&[5]),
        Feed::SlowPipe(&[1, 2]),
        Feed::SlowPipe(&[3]),
        Feed::SlowPipe(&[5]),
        Feed::SlowPipe(&[7]),
    ];
    const MIDDLE: &[Feed] = &[
        Feed::File,
        Feed::Pipe(&[1, 3, 5, 7, 127]),
        Feed::Pipe(&[4093]),
        Feed::SlowPipe(&[1023]),
    ];
    const LARGE: &[Feed] = &[
        Feed::File,
        Feed::Pipe(&[4093]),
        Feed::Pipe(&[65_535]),
        Feed::Pipe(&[1, 65_535, 3, 4093, 2, 5, 7, 65_537]),
    ];
    const UNVARIED: &[Feed] = &[Feed::File, Feed::Pipe(&[3, 65_535])];
    match length {
        _ if !varied => UNVARIED,
        0..=40 => SMALL,
        41..=10_000 => MIDDLE,
        _ => LARGE,
    }
}

/// Bytes that inputs are cut from.
struct Source {
    name: &'static str,
    varied: bool,
    bytes: Vec<u8>,
}

impl Source {
    /// Starts at another record for another length, so that short inputs are
    /// not all beginnings of one another.
    fn part(&self, length: usize) -> &[u8] {
        let start = length * 52 % STARTS;
        &self.bytes[start..start + length]
    }
}

fn sources(seed: u64) -> Vec<Source> {
    let room = LONGEST + STARTS;
    let words = room.div_ceil(4) as u64;
    let mut random = Random::new(seed ^ 0x5eed);
    vec![
        Source {
            name: "zeros",
            varied: false,
            bytes: vec![0; room],
        },
        Source {
            name: "bytes ff",
            varied: false,
            bytes: vec![0xff; room],
        },
        Source {
            name: "many matching words",
            varied: true,
            bytes: listing_words(seed, words)
                .flat_map(u32::to_le_bytes)
                .collect(),
        },
        Source {
            name: "random bytes",
            varied: true,
            bytes: (0..words)
                .flat_map(|_| random.next_u32().to_le_bytes())
                .collect(),
        },
    ]
}

/// A file of this program's own, taken away at the end.
struct InputFile {
    path: PathBuf,
}

impl InputFile {
    fn new() -> Result<InputFile, Problem> {
        let name = format!("listcheck-{}.bin", std::process::id());
        let path = std::env::temp_dir().join(name);
        // Never an existing file, nor one behind a link.
        match File::create_new(&path) {
            Ok(_) => Ok(InputFile { path }),
            Err(error) => Err(broken(&path, error)),
        }
    }

    fn hold(&self, bytes: &[u8]) -> Result<(), Problem> {
        fs::write(&self.path, bytes).map_err(|error| broken(&self.path, error))
    }
}

fn broken(path: &Path, error: io::Error) -> Problem {
    Problem::Broken(format!("{}: {error}", path.display()))
}

impl Drop for InputFile {
    fn drop(&mut self) {
        let _ = fs::remove_file(&self.path);
    }
}

fn run_once(
    lister: &OsStr,
    feed: Feed,
    file: &Path,
    input: &[u8],
    expected: &[u8],
) -> Result<(), Problem> {
    let stdin = match feed {
        Feed::File => Stdio::from(File::open(file).map_err(|error| broken(file, error))?),
        Feed::Pipe(_) | Feed::SlowPipe(_) => Stdio::piped(),
    };
    let mut child = Command::new(lister)
        .stdin(stdin)
        .stdout(Stdio::piped())
        .spawn()
        .map_err(|error| broken(Path::new(lister), error))?;
    let stdin = child.stdin.take();
    let mut stdout = child.stdout.take().expect("the output is piped");
    // Enough to see that there is too much, and no more.
    let limit = expected.len() as u64 + 4096;

    let (sender, receiver) = mpsc::channel();
    let (found, status) = thread::scope(|scope| {
        if let Some(pipe) = stdin {
            scope.spawn(move || match feed {
                Feed::File => {}
                Feed::Pipe(sizes) => write_in_chunks(pipe, input, sizes, Duration::ZERO),
                Feed::SlowPipe(sizes) => {
                    thread::sleep(START_TIME);
                    write_in_chunks(pipe, input, sizes, PAUSE);
                }
            });
        }
        scope.spawn(move || {
            let mut found = Vec::new();
            let result = (&mut stdout).take(limit).read_to_end(&mut found);
            // The receiver may have given up.
            let _ = sender.send(result.map(|_| found));
        });
        let found = receiver.recv_timeout(PATIENCE);
        // Both threads end with the lister, so it is waited for, or stopped,
        // before they are.
        let status = wait_or_stop(&mut child, found.is_err());
        (found, status)
    });

    let found = match found {
        Err(_) => return Err(too_slow()),
        Ok(Err(error)) => return Err(Problem::Broken(error.to_string())),
        Ok(Ok(found)) => found,
    };
    if let Some(difference) = first_difference(expected, &found) {
        return Err(Problem::Fails(format!(
            "line {} should be {} and is {}",
            difference.line,
            shown(&difference.expected),
            shown(&difference.found)
        )));
    }
    match status {
        Err(error) => Err(Problem::Broken(error.to_string())),
        Ok(None) => Err(too_slow()),
        Ok(Some(status)) if status.success() => Ok(()),
        Ok(Some(status)) => Err(Problem::Fails(format!("the output is right, but {status}"))),
    }
}

fn too_slow() -> Problem {
    Problem::Fails(format!("it did not end in {} s", PATIENCE.as_secs()))
}

fn write_in_chunks(mut pipe: ChildStdin, input: &[u8], sizes: &[usize], pause: Duration) {
    let mut rest = input;
    for &size in sizes.iter().cycle() {
        if rest.is_empty() {
            return;
        }
        let (chunk, after) = rest.split_at(size.min(rest.len()));
        // A lister that stops reading early shows in its output.
        if pipe.write_all(chunk).and_then(|()| pipe.flush()).is_err() {
            return;
        }
        rest = after;
        if !pause.is_zero() {
            thread::sleep(pause);
        }
    }
}

/// The lister's status once its output has ended; none if it had to be
/// stopped.
fn wait_or_stop(child: &mut Child, stop_now: bool) -> io::Result<Option<ExitStatus>> {
    let begin = Instant::now();
    while !stop_now && begin.elapsed() < PATIENCE {
        if let Some(status) = child.try_wait()? {
            return Ok(Some(status));
        }
        thread::sleep(Duration::from_micros(50));
    }
    child.kill()?;
    child.wait()?;
    Ok(None)
}

fn describe(input: &[u8], contents: &str, feed: Feed, how: &str) -> String {
    let digits: Vec<String> = input.iter().take(48).map(|b| format!("{b:02x}")).collect();
    let more = if input.len() > 48 { " .." } else { "" };
    format!(
        "listcheck: fails on {} bytes ({contents}), given {feed}: {how}\n\
         input: {}{more}\n",
        input.len(),
        digits.join(" ")
    )
}

#[cfg(test)]
mod tests {
    use super::*;

    #[test]
    fn lengths_ascend_and_fit() {
        let lengths = lengths();
        assert!(lengths.is_sorted_by(|a, b| a < b));
        assert_eq!(lengths[..41], (0..=40).collect::<Vec<usize>>());
        assert_eq!(lengths.last(), Some(&LONGEST));
        for source in sources(1) {
            for &length in &lengths {
                assert_eq!(source.part(length).len(), length);
            }
        }
    }
}
