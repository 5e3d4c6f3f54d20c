//! The command line.

use std::ffi::{OsStr, OsString};
use std::fs::File;
use std::io::{self, ErrorKind, Write};
use std::path::{Path, PathBuf};
use std::process::ExitCode;

use crate::failure::{Failure, Status, name_of, quoted};
use crate::files;
use crate::lesson::{Lesson, parser::length};
use crate::paint::Paint;
use crate::plot::Curve;
use crate::register::Elements;
use crate::report::Report;
use crate::run::Session;
use crate::save;
use crate::view::Views;
use crate::words::{self, ListError};

const HELP: &str = include_str!("help/gighull.txt");
const LESSON_HELP: &str = include_str!("help/lesson.txt");

pub fn main() -> ExitCode {
    let arguments: Vec<OsString> = std::env::args_os().skip(1).collect();
    let status = match answer(&arguments) {
        Ok((text, status)) => match said(io::stdout().write_all(text.as_bytes())) {
            Ok(()) => status,
            Err(failure) => complain(&failure),
        },
        Err(failure) => complain(&failure),
    };
    ExitCode::from(status as u8)
}

fn complain(failure: &Failure) -> Status {
    // Where not even this can be said, the status still says it.
    let _ = writeln!(io::stderr(), "{failure}");
    failure.status
}

/// A reader that went away has read what it wanted.
fn said(result: io::Result<()>) -> Result<(), Failure> {
    match result {
        Err(error) if error.kind() != ErrorKind::BrokenPipe => {
            Err(Failure::new("gighull: standard output", error.to_string()))
        }
        _ => Ok(()),
    }
}

type Answered = Result<(String, Status), Failure>;

fn answer(arguments: &[OsString]) -> Answered {
    let Some((command, rest)) = arguments.split_first() else {
        let message = "which command? list, decode, encode, conflict or run (--help teaches)";
        return Err(Failure::new("gighull", message));
    };
    let asks_help = |argument: &OsString| argument == "--help" || argument == "-h";
    let done = |text: String| (text, Status::Done);
    if asks_help(command) || command == "help" || rest.iter().any(asks_help) {
        let lesson = command == "run" || rest.iter().any(|topic| topic == "run");
        return Ok(done(if lesson { LESSON_HELP } else { HELP }.to_string()));
    }
    match command.to_str() {
        Some("list") => list(rest),
        Some("decode") => words::decode_all(&texts("decode", rest)?),
        Some("encode") => words::encode(&texts("encode", rest)?).map(done),
        Some("conflict") => words::conflict_of(&texts("conflict", rest)?).map(done),
        Some("run") => run(rest),
        _ => {
            let command = quoted(&command.to_string_lossy());
            let message =
                format!("there is no command {command}: list, decode, encode, conflict, run");
            Err(Failure::new("gighull", message))
        }
    }
}

fn texts<'a>(command: &str, arguments: &'a [OsString]) -> Result<Vec<&'a str>, Failure> {
    let text = |argument: &'a OsString| {
        argument.to_str().ok_or_else(|| {
            let argument = quoted(&argument.to_string_lossy());
            Failure::new(
                format!("gighull {command}"),
                format!("{argument} is no text"),
            )
        })
    };
    arguments.iter().map(text).collect()
}

/// Lists a file, or standard input for none and for `-`.
fn list(arguments: &[OsString]) -> Answered {
    let path = match arguments {
        [] => None,
        [path] if path == "-" => None,
        [path] => Some(Path::new(path)),
        _ => {
            return Err(Failure::new(
                "gighull list",
                "one file, or none for standard input",
            ));
        }
    };
    let mut out = io::stdout().lock();
    let result = match path {
        None => words::list(io::stdin().lock(), &mut out),
        Some(path) => {
            let file = File::open(path).map_err(|error| Failure::of_file(path, &error))?;
            words::list(file, &mut out)
        }
    };
    match result {
        Ok(()) => said(out.flush())?,
        Err(ListError::Write(error)) => said(Err(error))?,
        Err(ListError::Read(error)) => {
            let name = path.map_or("gighull: standard input".to_string(), name_of);
            return Err(Failure::new(name, error.to_string()));
        }
    }
    Ok((String::new(), Status::Done))
}

#[derive(Default)]
struct Options {
    lesson: Option<PathBuf>,
    vl: Option<u32>,
    steps: bool,
    save: Option<PathBuf>,
    plot: Option<Plot>,
}

struct Plot {
    elements: Elements,
    /// The first and the last element, where not all are drawn.
    part: Option<(u32, u32)>,
    path: PathBuf,
}

fn options(arguments: &[OsString]) -> Result<Options, Failure> {
    let failure = |message: String| Failure::new("gighull run", message);
    let mut options = Options::default();
    let mut rest = arguments.iter();
    let mut given: Vec<&OsString> = Vec::new();
    while let Some(argument) = rest.next() {
        let is_option = argument.to_string_lossy().starts_with("--");
        if is_option && given.contains(&argument) {
            let option = quoted(&argument.to_string_lossy());
            return Err(failure(format!("{option} is given twice")));
        }
        given.push(argument);
        let mut value = |what: &str| {
            let name = argument.to_string_lossy();
            rest.next()
                .ok_or_else(|| failure(format!("{what} is missing after {name}")))
        };
        match argument.to_str() {
            Some("--vl") => {
                let text = value("a vector length")?.to_string_lossy();
                options.vl =
                    Some(length(&text).map_err(|message| failure(format!("--{message}")))?);
            }
            Some("--steps") => options.steps = true,
            Some("--save") => options.save = Some(PathBuf::from(value("a file")?)),
            Some("--plot") => {
                let register = value("a register such as z4.h")?;
                let path = PathBuf::from(value("a file such as curve.svg")?);
                let (elements, part) = drawn(register).map_err(failure)?;
                options.plot = Some(Plot {
                    elements,
                    part,
                    path,
                });
            }
            Some(option) if option.starts_with("--") => {
                let option = quoted(option);
                return Err(failure(format!(
                    "there is no option {option}: --vl, --steps, --save, --plot"
                )));
            }
            _ if options.lesson.is_some() => {
                let more = quoted(&argument.to_string_lossy());
                return Err(failure(format!("{more} is one lesson too many")));
            }
            _ => options.lesson = Some(PathBuf::from(argument)),
        }
    }
    Ok(options)
}

/// `z4.h`, or `z4.h:0-10` for some of its elements.
fn drawn(text: &OsStr) -> Result<(Elements, Option<(u32, u32)>), String> {
    let text = text.to_string_lossy();
    let (name, part) = match text.split_once(':') {
        Some((name, part)) => (name, Some(part)),
        None => (&*text, None),
    };
    let elements = Elements::from_name(name).ok_or_else(|| {
        format!(
            "--plot: {} is no register with a width: z4.h, p0.b, zt0.s",
            quoted(name)
        )
    })?;
    let part = part.map(|part| {
        let (first, last) = part.split_once('-')?;
        let (first, last) = (first.parse().ok()?, last.parse().ok()?);
        (first <= last).then_some((first, last))
    });
    match part {
        Some(None) => Err(format!(
            "--plot: {} is no part such as z4.h:0-10",
            quoted(&text)
        )),
        Some(part) => Ok((elements, part)),
        None => Ok((elements, None)),
    }
}

fn run(arguments: &[OsString]) -> Answered {
    let options = options(arguments)?;
    let Some(path) = &options.lesson else {
        let message = "which lesson? gighull run lessons/diode.lesson";
        return Err(Failure::new("gighull run", message));
    };
    let lesson = Lesson::read(path)?;
    let vl = options.vl.unwrap_or(lesson.setting.vl);
    let session = Session::new(&lesson, vl);
    let mut written: Vec<(&Path, String)> = Vec::new();
    if let Some(to) = &options.save {
        written.push((to, save::text(&session)));
    }
    if let Some(plot) = &options.plot {
        written.push((&plot.path, curve(plot, &session)?.svg()));
    }
    for (place, (to, _)) in written.iter().enumerate() {
        let others = written[..place].iter().map(|(other, _)| *other);
        if others
            .chain([path.as_path()])
            .any(|other| files::same(to, other))
        {
            return Err(Failure::new(name_of(to), "this file has another use here"));
        }
    }
    files::write(&written)?;
    let report = Report {
        session: &session,
        paint: Paint::for_stdout(),
    };
    let status = match session.ran.refusal {
        None => Status::Done,
        Some(_) => Status::Refused,
    };
    Ok((report.text(options.steps), status))
}

fn curve(plot: &Plot, session: &Session) -> Result<Curve, Failure> {
    let Plot { elements, part, .. } = plot;
    let vl = session.setting.vl;
    let views = Views::of(session.lesson, session.setting, session.ran.done);
    let mut values = views.values(*elements, &session.ran.end, vl);
    let count = values.len();
    let (first, last) = part.unwrap_or((0, count as u32 - 1));
    if last as usize >= count {
        let message = format!("--plot: {elements} has {count} elements at VL {vl}");
        return Err(Failure::new("gighull run", message));
    }
    values.truncate(last as usize + 1);
    Ok(Curve {
        title: format!("{elements} after {}, VL {vl}", session.lesson.name),
        name: elements.to_string(),
        first,
        values: values.split_off(first as usize),
    })
}
