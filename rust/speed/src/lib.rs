//! What the drivers share: where two texts differ, the middle of some times,
//! and how to fail; what `leafspeed` and `archivespeed` time, and how; and what
//! `speedplot` reads and draws.

use std::io::Write;
use std::process::ExitCode;

pub mod archive;
pub mod cases;
pub mod functions;
mod object;
pub mod ratio_plot;
pub mod ratios;
pub mod timing;

/// The first line that two texts do not have alike.
#[derive(Debug, PartialEq, Eq)]
pub struct Difference {
    /// Counted from 1.
    pub line: usize,
    /// As they stand, with their newlines; empty where a text has ended.
    pub expected: Vec<u8>,
    pub found: Vec<u8>,
}

pub fn first_difference(expected: &[u8], found: &[u8]) -> Option<Difference> {
    // Nearly always so, and much quicker than going by lines.
    if expected == found {
        return None;
    }
    let mut expected_lines = expected.split_inclusive(|&byte| byte == b'\n');
    let mut found_lines = found.split_inclusive(|&byte| byte == b'\n');
    let mut line = 1;
    loop {
        match (expected_lines.next(), found_lines.next()) {
            (None, None) => return None,
            (a, b) if a == b => line += 1,
            (a, b) => {
                return Some(Difference {
                    line,
                    expected: a.unwrap_or_default().to_vec(),
                    found: b.unwrap_or_default().to_vec(),
                });
            }
        }
    }
}

/// A line for people, whatever bytes are in it.
pub fn shown(line: &[u8]) -> String {
    let cut = &line[..line.len().min(80)];
    format!("{:?}", String::from_utf8_lossy(cut))
}

pub fn minimum_and_median(times: &mut [f64]) -> (f64, f64) {
    times.sort_by(f64::total_cmp);
    let middle = times.len() / 2;
    let median = if times.len() % 2 == 1 {
        times[middle]
    } else {
        (times[middle - 1] + times[middle]) / 2.0
    };
    (times[0], median)
}

/// One line on stderr and a status.
pub fn fail(program: &str, line: &str, status: u8) -> ExitCode {
    let _ = writeln!(std::io::stderr(), "{program}: {line}");
    ExitCode::from(status)
}

#[cfg(test)]
mod tests {
    use super::*;

    #[test]
    fn differences() {
        assert_eq!(first_difference(b"", b""), None);
        assert_eq!(first_difference(b"a\nb\n", b"a\nb\n"), None);
        let missing_newline = first_difference(b"a\nb\n", b"a\nb").unwrap();
        assert_eq!(missing_newline.line, 2);
        assert_eq!(missing_newline.found, b"b");
        let too_much = first_difference(b"a\n", b"a\nSHORT 0\n").unwrap();
        assert_eq!((too_much.line, too_much.expected), (2, Vec::new()));
    }

    #[test]
    fn medians() {
        assert_eq!(minimum_and_median(&mut [3.0, 1.0, 2.0]), (1.0, 2.0));
        assert_eq!(minimum_and_median(&mut [4.0, 1.0, 2.0, 3.0]), (1.0, 2.5));
        assert_eq!(minimum_and_median(&mut [5.0]), (5.0, 5.0));
    }
}
