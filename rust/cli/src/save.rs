//! A machine as the text of a lesson, to go on from.

use std::fmt::Write;

use gighull::{Machine, Scalars};

use crate::lesson::Flags;
use crate::register::{Elements, Register};
use crate::run::Session;

/// The machine that the session ended with, as a lesson without words.
pub fn text(session: &Session) -> String {
    let setting = session.setting;
    let end = &session.ran.end;
    let number = session.ran.refusal.map_or(0, |refusal| refusal.number());
    let (done, count) = (session.ran.done, session.lesson.words.len());
    let mut text = format!(
        "# The machine after {done} of {count} words of {}, answer {number}.\n\
         # Words may be added before `end`.\n\
         vl {}\nfeatures {}\n",
        session.lesson.name, setting.vl, setting.features
    );
    let scalars = end.scalars;
    let Scalars { v, s, t, .. } = scalars;
    let open = Flags { v, s, t }.open();
    let _ = writeln!(text, "flags {open}\npc = {:#x}", scalars.pc);
    for k in 12..16 {
        let value = scalars.w(k).expect("W12 to W15 are there");
        if value != 0 {
            let _ = writeln!(text, "w{k} = {value}");
        }
    }
    for register in Register::of_files() {
        text.push_str(&content(register, end, setting.vl));
    }
    text.push_str("\nend\n");
    text
}

/// A register's line: up to its last element that is not 0, and none where
/// there is none.
fn content(register: Register, machine: &Machine, vl: u32) -> String {
    let width = match register {
        Register::Z(_) => 16,
        Register::Zt0 => 32,
        Register::P(_) | Register::W(_) => 8,
    };
    let elements = Elements { register, width };
    let mut values = elements.all(machine, vl);
    let used = values
        .iter()
        .rposition(|&value| value != 0)
        .map_or(0, |last| last + 1);
    values.truncate(used);
    if values.is_empty() {
        return String::new();
    }
    let values: Vec<String> = values.iter().map(u64::to_string).collect();
    format!("{elements} = {}\n", values.join(" "))
}
