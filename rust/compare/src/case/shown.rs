//! A case as its text.

use std::fmt::{self, Write};

use reference::machine::{Flags, Machine};
use reference::setting::Setting;

use super::{Case, IndexQuestion, Request};

impl fmt::Display for Case {
    fn fmt(&self, out: &mut fmt::Formatter) -> fmt::Result {
        out.write_str(self.kind().name())?;
        match self {
            Case::Decode {
                setting,
                word,
                room,
            } => write!(out, "{} word={word:08x} room={room}", shown(*setting)),
            Case::Encode { setting, numbers } => {
                write!(out, "{} numbers={}", shown(*setting), decimals(numbers))
            }
            Case::Step {
                setting,
                word,
                machine,
            } => write!(
                out,
                "{} word={word:08x}{}",
                shown(*setting),
                shown_machine(machine)
            ),
            Case::Run {
                setting,
                words,
                machine,
            } => write!(
                out,
                "{} words={}{}",
                shown(*setting),
                hexes(words),
                shown_machine(machine)
            ),
            Case::Conflict {
                setting,
                first,
                second,
            } => write!(
                out,
                "{} first={first:08x} second={second:08x}",
                shown(*setting)
            ),
            Case::Permitted {
                setting,
                words,
                order,
            } => write!(
                out,
                "{} words={} order={}",
                shown(*setting),
                hexes(words),
                decimals(order)
            ),
            Case::Vector(request) | Case::Predicate(request) => {
                let Request {
                    file,
                    vl,
                    register,
                    room,
                } = request;
                let file = shown_file(file);
                write!(out, " vl={vl} register={register} room={room} file={file}")
            }
            Case::Lines { input, room } => {
                write!(out, " room={room} input={}", shown_file(input))
            }
            Case::Index(question) => {
                let IndexQuestion {
                    vl,
                    size,
                    offset,
                    w,
                } = question;
                write!(out, " vl={vl} size={size} offset={offset} w={w:08x}")
            }
        }
    }
}

fn shown(setting: Setting) -> String {
    format!(" vl={} features={}", setting.vl, setting.features)
}

fn shown_machine(machine: &Machine) -> String {
    let Flags { v, s, t } = machine.flags;
    let open: String = [(v, 'v'), (s, 's'), (t, 't')]
        .into_iter()
        .filter_map(|(open, letter)| open.then_some(letter))
        .collect();
    format!(
        " z={} p={} zt={} w={} pc={:x} flags={open}",
        shown_file(&machine.z),
        shown_file(&machine.p),
        shown_file(&machine.zt0),
        hexes(&machine.w),
        machine.pc
    )
}

/// Zeros between bytes that are shown, rather than a new place.
const GAP: usize = 3;

fn shown_file(bytes: &[u8]) -> String {
    let mut text = bytes.len().to_string();
    let mut shown = None; // the place behind the last byte in the text
    for (at, &byte) in bytes.iter().enumerate() {
        if byte == 0 {
            continue;
        }
        let from = match shown {
            Some(end) if at - end <= GAP => end,
            _ => {
                write!(text, "@{at}=").unwrap();
                at
            }
        };
        for byte in &bytes[from..=at] {
            write!(text, "{byte:02x}").unwrap();
        }
        shown = Some(at + 1);
    }
    text
}

fn decimals(numbers: &[u32]) -> String {
    listed(numbers, |number| number.to_string())
}

fn hexes(numbers: &[u32]) -> String {
    listed(numbers, |number| format!("{number:x}"))
}

/// A number that comes more often in a row is shown once, with how often.
fn listed(numbers: &[u32], shown: fn(u32) -> String) -> String {
    let words: Vec<String> = numbers
        .chunk_by(|a, b| a == b)
        .flat_map(|row| match row.len() {
            0..=4 => vec![shown(row[0]); row.len()],
            count => vec![format!("{}*{count}", shown(row[0]))],
        })
        .collect();
    words.join(",")
}
