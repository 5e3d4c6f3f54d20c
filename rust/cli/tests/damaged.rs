//! A hundred damaged lessons: a clear line each, never a panic, nothing
//! written.

mod support;

use std::fs;
use std::path::Path;

use gighull_cli::lesson::{LENGTHS, Lesson};
use gighull_cli::paint::Paint;
use gighull_cli::report::Report;
use gighull_cli::run::Session;
use gighull_cli::save;
use reference::random::Random;
use support::{LESSONS, complaint, folder, gighull_in, lesson_text, names_in};

const SEED: u64 = 500;
const OF_EACH_KIND: usize = 20;

type Damage = fn(&mut Random, &str) -> Vec<u8>;

const KINDS: [(&str, Damage); 5] = [
    ("cut", cut),
    ("wrong-number", wrong_number),
    ("unknown-name", unknown_name),
    ("too-many", too_many),
    ("random-bytes", random_bytes),
];

fn below(random: &mut Random, bound: usize) -> usize {
    random.below(bound as u32) as usize
}

/// Cut anywhere before its end.
fn cut(random: &mut Random, text: &str) -> Vec<u8> {
    let end = text.rfind("end").unwrap();
    text.as_bytes()[..below(random, end + 2)].to_vec()
}

/// The runs of such letters outside comments, as ranges of bytes.
fn runs(text: &str, part: fn(char) -> bool) -> Vec<(usize, usize)> {
    let mut runs: Vec<(usize, usize)> = Vec::new();
    let mut comment = false;
    for (at, letter) in text.char_indices() {
        comment = letter != '\n' && (comment || letter == '#');
        if comment || !part(letter) {
            continue;
        }
        match runs.last_mut() {
            Some((_, end)) if *end == at => *end += 1,
            _ => runs.push((at, at + 1)),
        }
    }
    runs
}

fn replaced(text: &str, (from, to): (usize, usize), with: &str) -> Vec<u8> {
    format!("{}{with}{}", &text[..from], &text[to..]).into_bytes()
}

fn wrong_number(random: &mut Random, text: &str) -> Vec<u8> {
    let numbers = runs(text, |letter| letter.is_ascii_digit());
    let run = numbers[below(random, numbers.len())];
    let wrong = [
        "--1",
        "-99999999999999999999",
        "1.5",
        "12x",
        "0x",
        "99999999999999999999",
        "٣",
        "+2",
        "1,",
    ];
    replaced(text, run, random.pick(&wrong))
}

fn unknown_name(random: &mut Random, text: &str) -> Vec<u8> {
    let names = runs(text, |letter| letter.is_ascii_alphabetic());
    let run = names[below(random, names.len())];
    // No name of a lesson begins with a q.
    let mut name = String::from("q");
    for _ in 0..random.below(40) {
        name.push(char::from(b'a' + random.below(26) as u8));
    }
    replaced(text, run, &name)
}

/// More elements than the register has, more counted than there are, more
/// positions than words.
fn too_many(random: &mut Random, text: &str) -> Vec<u8> {
    let mut lines: Vec<String> = text.lines().map(str::to_string).collect();
    let is_list = |line: &str| {
        [".s = ", ".n  = ", ".h = "]
            .iter()
            .any(|name| line.contains(name))
    };
    let may_grow = |line: &str| line.contains(" first ") || line.starts_with("order ");
    let places: Vec<usize> = (0..lines.len())
        .filter(|&at| !lines[at].starts_with('#'))
        .filter(|&at| is_list(&lines[at]) || may_grow(&lines[at]))
        .collect();
    let line = &mut lines[random.pick(&places)];
    let told = line.split('#').next().unwrap().trim_end().to_string();
    *line = if told.contains(" first ") {
        format!("{told}{}", 1000 + random.below(9000))
    } else {
        let more = if told.starts_with("order") { 1 } else { 129 };
        told + &" 1".repeat(more + below(random, 600))
    };
    lines.join("\n").into_bytes()
}

/// A whole file of them, some in the middle of a lesson that are no text, or
/// a line of its own that is.
fn random_bytes(random: &mut Random, text: &str) -> Vec<u8> {
    let mut bytes = |count: u32, from: u32, below: u32| -> Vec<u8> {
        let byte = |_| (from + random.below(below - from)) as u8;
        (0..count).map(byte).collect()
    };
    let size = u32::from(bytes(1, 1, 256)[0]);
    let kind = bytes(1, 0, 3)[0];
    let some = match kind {
        0 => return bytes(size, 0, 256),
        1 => bytes(6, 0x80, 0x100),
        _ => [b"\n%", &bytes(size, 0x20, 0x80)[..], b"\n"].concat(),
    };
    let at = below(random, text.rfind("end").unwrap());
    [&text.as_bytes()[..at], &some, &text.as_bytes()[at..]].concat()
}

#[test]
fn a_hundred_damaged_lessons() {
    let mut random = Random::new(SEED);
    let folder = folder("damaged");
    let mut names = Vec::new();
    let mut complaints = String::new();
    for (kind, damage) in KINDS {
        for number in 0..OF_EACH_KIND {
            let text = lesson_text(LESSONS[number % LESSONS.len()]);
            let bytes = damage(&mut random, &text);
            let name = format!("{kind}-{number:02}.lesson");
            fs::write(folder.join(&name), &bytes).unwrap();
            complaints.push_str(&refused(&folder, &name, &bytes));
            names.push(name);
        }
    }
    assert_eq!(names.len(), 100);
    names.sort();
    // The lessons themselves, and nothing else: no file was begun.
    assert_eq!(names_in(&folder), names);
    for part in [
        ":1: ",
        "end",
        "is no number from -2147483648 to 4294967295",
        "there is no",
        "elements at VL",
    ] {
        assert!(complaints.contains(part), "{part} is not in\n{complaints}");
    }
    println!("{complaints}");
}

/// Small edits anywhere: what is still a lesson runs, is told, and
/// saved it is a lesson that starts from the same machine; the rest is refused
/// with its place. None panics.
#[test]
fn thousands_of_edits() {
    let mut random = Random::new(SEED + 1);
    let letters: Vec<char> = "0123456789abcdefxnhsd.=# \n-'…".chars().collect();
    let mut found = [0; 2];
    for number in 0..3000 {
        let mut text: Vec<char> = lesson_text(LESSONS[number % LESSONS.len()])
            .chars()
            .collect();
        for _ in 0..1 + random.below(3) {
            let at = below(&mut random, text.len() - 1);
            match random.below(4) {
                0 => drop(text.remove(at)),
                1 => text.insert(at, random.pick(&letters)),
                2 => text[at] = random.pick(&letters),
                _ => text.swap(at, at + 1),
            }
        }
        let text: String = text.into_iter().collect();
        match Lesson::parse("edited.lesson", text.as_bytes()) {
            Err(failure) => {
                assert!(failure.place.starts_with("edited.lesson:"));
                found[1] += 1;
            }
            Ok(lesson) => {
                let vl = random.pick(&LENGTHS);
                let session = Session::new(&lesson, vl);
                let paint = Paint(random.coin());
                let report = Report {
                    session: &session,
                    paint,
                };
                assert!(report.text(true).contains("answer   "));
                let saved = save::text(&session);
                let again = Lesson::parse("saved.lesson", saved.as_bytes()).unwrap();
                assert!(again.machine(vl).0 == session.ran.end, "{text}\n{saved}");
                found[0] += 1;
            }
        }
    }
    assert!(found.iter().all(|&count| count > 500), "{found:?}");
}

/// One line with its place, and nothing else; the line is answered.
fn refused(folder: &Path, name: &str, bytes: &[u8]) -> String {
    let arguments = [
        "run",
        name,
        "--save",
        "saved.lesson",
        "--plot",
        "z8.s",
        "curve.svg",
    ];
    let output = gighull_in(folder, &arguments);
    let said = complaint(&output);
    let shown = String::from_utf8_lossy(bytes);
    assert_eq!(output.status.code(), Some(1), "{name}: {said}\n{shown}");
    assert!(output.stdout.is_empty(), "{name}");
    let line = said.strip_suffix('\n').expect("a whole line");
    assert!(!line.chars().any(char::is_control), "{line:?}");
    assert!(line.chars().count() <= 300, "{line}");
    let (place, message) = line.split_once(": ").expect("a place and a message");
    let (file, number) = place.rsplit_once(':').expect("a file and a line");
    assert_eq!(file, name);
    let lines = bytes.split(|&byte| byte == b'\n').count();
    let number: usize = number.parse().unwrap();
    assert!((1..=lines).contains(&number), "{line}: {lines} lines");
    assert!(message.len() > 10, "{line}");
    said
}
