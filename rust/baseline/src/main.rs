//! `fastlist`: the lister of document 01, written plainly for speed.
//!
//! Words on standard input, four bytes each, low byte first; one line for
//! each on standard output. One pass with large buffers, one write for each
//! buffer, nothing allocated on the way.

#![forbid(unsafe_code)]

mod form;
mod line;

use std::io::{self, Read, Write};
use std::process::ExitCode;

use form::form_of;
use line::LINE_ROOM;

/// A multiple of 4, so that only the last buffer can end inside a word.
const INPUT_BYTES: usize = 64 * 1024;

/// No line is longer than `LINE_ROOM`, nor is the last one for left-over
/// bytes.
const OUTPUT_BYTES: usize = (INPUT_BYTES / 4 + 1) * LINE_ROOM;

/// How many words have their forms found before their lines are written.
/// Apart, the first of the two loops is one the compiler does several words
/// of at a time.
const BLOCK_WORDS: usize = 256;

fn main() -> ExitCode {
    match list(&mut io::stdin().lock(), &mut io::stdout().lock()) {
        Ok(()) => ExitCode::SUCCESS,
        // The reader has seen enough.
        Err(error) if error.kind() == io::ErrorKind::BrokenPipe => ExitCode::SUCCESS,
        Err(error) => {
            let _ = writeln!(io::stderr(), "fastlist: {error}");
            ExitCode::FAILURE
        }
    }
}

fn list(input: &mut impl Read, output: &mut impl Write) -> io::Result<()> {
    let mut bytes = vec![0u8; INPUT_BYTES];
    let mut text = vec![0u8; OUTPUT_BYTES];
    loop {
        let held = fill(input, &mut bytes)?;
        let left_over = held % 4;
        let mut end = 0;
        for block in bytes[..held - left_over].chunks(4 * BLOCK_WORDS) {
            end += list_block(block, &mut text[end..]);
        }
        if left_over > 0 {
            end += line::write_short(left_over, &mut text[end..]);
        }
        output.write_all(&text[..end])?;
        if held < INPUT_BYTES {
            return output.flush();
        }
    }
}

/// Reads until the buffer is full or the input ends, so that small reads from
/// a pipe neither split a word nor cause small writes.
fn fill(input: &mut impl Read, bytes: &mut [u8]) -> io::Result<usize> {
    let mut held = 0;
    while held < bytes.len() {
        match input.read(&mut bytes[held..]) {
            Ok(0) => break,
            Ok(got) => held += got,
            Err(error) if error.kind() == io::ErrorKind::Interrupted => {}
            Err(error) => return Err(error),
        }
    }
    Ok(held)
}

/// Writes the lines of at most `BLOCK_WORDS` words and says how long they are.
fn list_block(block: &[u8], text: &mut [u8]) -> usize {
    let mut forms = [0; BLOCK_WORDS];
    let records = block
        .chunks_exact(4)
        .map(|record| [record[0], record[1], record[2], record[3]]);
    for (form, record) in forms.iter_mut().zip(records.clone()) {
        *form = form_of(u32::from_le_bytes(record));
    }
    let mut end = 0;
    for (form, record) in forms.iter().zip(records) {
        end += line::write_line(record, *form, &mut text[end..]);
    }
    end
}
