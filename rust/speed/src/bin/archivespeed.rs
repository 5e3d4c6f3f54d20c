//! `archivespeed BEFORE AFTER [ROUNDS]`
//!
//! Times two archives of the proved library (`libgighull.a`, by their paths)
//! against each other in one process, in ns a word: what `leafspeed` times, and
//! the listing of 65,536 words. Each archive is made into a shared object, and
//! that is opened. Both sides work in the same memory, start from the same
//! machine, and must end alike in every answer and byte.
//!
//! A round times both, the one that goes first changing from round to round, and
//! gives a ratio after/before; the table has the median of the rounds' ratios,
//! each side's least time, and the ratio of these. Stretches and the listing
//! should not have a median above 1.05, and " OVER" marks those that have; the
//! single steps have no bar. Rows that are over leave the status 0.
//!
//! Where one of the archives has version 1 of the interface, only words that it
//! knows are timed and listed. Of the narrowing words it knew UQRSHRNB alone,
//! whose bar is 1.25 then.
//!
//! Up to version 2 the words at PSEL's layout are another operation with another
//! name. Where only one of the archives has such a version, rows with
//! these words are timed all the same, but of them the answers alone are compared;
//! the listing leaves these words out.
//!
//! So that the same code takes the same time on both sides and in every process,
//! functions and files begin with cache lines, rounds go through copies of the
//! shared objects and places of the stack, each side has some passes before it is
//! timed, and the rows take turns, some rounds at a time; nothing is printed
//! before the end. Where the median and the ratio of the least times are far
//! apart all the same, take more rounds.

use std::ffi::{OsStr, OsString};
use std::hint::black_box;
use std::io::{self, Write};
use std::process::ExitCode;
use std::time::Instant;

use gighull::Scalars;
use reference::samples::listing_words;
use speed::archive::{Archive, COPIES};
use speed::cases::{Case, Kind, LENGTHS, W, Words, cases, is_psel};
use speed::functions::{Functions, Lent};
use speed::timing::{Rounds, by_place, passes_in_a_round, timed};
use speed::{fail, minimum_and_median};

const USAGE: &str = "usage: archivespeed BEFORE AFTER [ROUNDS]";
const DEFAULT_ROUNDS: usize = 201;
/// What the median of a stretch or of the listing should not be above.
const BAR: f64 = 1.05;
/// The same of UQRSHRNB, against an archive where it was the only one.
const BAR_OF_OLD_NARROWING: f64 = 1.25;
/// The first version of the interface with PSEL.
const FIRST_WITH_PSEL: u32 = 3;
const LISTED: usize = 65_536;
/// The longest line of a listing, with its newline.
const LINE: usize = 19;

/// Rounds of a row at a time: each copy of an archive goes first and second.
const VISIT: usize = 2 * COPIES;

/// The sides as `Rounds` numbers them, so that a ratio is after/before.
const AFTER: usize = 0;
const BEFORE: usize = 1;

fn main() -> ExitCode {
    let arguments: Vec<OsString> = std::env::args_os().skip(1).collect();
    let (before, after, rounds) = match &arguments[..] {
        [before, after] => (before, after, DEFAULT_ROUNDS),
        [before, after, rounds] => match rounds.to_str().and_then(|r| r.parse().ok()) {
            Some(rounds) if rounds > 0 => (before, after, rounds),
            _ => return fail("archivespeed", "ROUNDS is not a number above 0", 2),
        },
        _ => return fail("archivespeed", USAGE, 2),
    };
    match compare(before, after, rounds) {
        Ok(report) => match io::stdout().write_all(report.as_bytes()) {
            Ok(()) => ExitCode::SUCCESS,
            Err(error) => fail("archivespeed", &error.to_string(), 1),
        },
        Err(problem) => fail("archivespeed", &problem, 1),
    }
}

/// Says in one line what is wrong.
fn compare(before: &OsStr, after: &OsStr, rounds: usize) -> Result<String, String> {
    let opened = (Archive::open(before)?, Archive::open(after)?);
    let sides = [opened.1, opened.0];
    if !sides[AFTER].is_apart_from(&sides[BEFORE]) {
        return Err("the archives were opened as one".to_string());
    }
    let mut report = format!("{rounds} rounds; ratio after/before; ns a word\n");
    for (title, path, side) in [("before", before, BEFORE), ("after", after, AFTER)] {
        let (path, hash) = (path.display(), &sides[side].hash);
        report += &format!("{title}: {path} (FNV-1a {hash})\n");
    }
    report += "| form | VL | median | before | after | least/least | bar |\n";
    report += "|---|---|---|---|---|---|---|\n";
    let mut over = 0;
    let shared = Shared::by(&sides);
    for row in &mut timed_rows(&sides, shared, rounds)? {
        let (line, is_over) = row.shown();
        report += &line;
        over += usize::from(is_over);
    }
    let but = match shared.psel {
        true => "",
        false => ", but of PSEL the answers alone are compared",
    };
    report += &format!("all equal after every case{but}; {over} over their bar\n");
    Ok(report)
}

/// What two archives have in common.
#[derive(Clone, Copy)]
struct Shared {
    words: Words,
    /// Whether the words at PSEL's layout are the same in both.
    psel: bool,
}

impl Shared {
    fn by(sides: &[Archive; 2]) -> Shared {
        let versions = [&sides[BEFORE], &sides[AFTER]].map(|side| side.version);
        Shared {
            words: match versions.contains(&1) {
                true => Words::Old,
                false => Words::All,
            },
            psel: (versions[0] < FIRST_WITH_PSEL) == (versions[1] < FIRST_WITH_PSEL),
        }
    }
}

/// Goes through the rows again and again, some rounds of each, so that what
/// disturbs the machine for a moment takes few of the rounds of any.
fn timed_rows(sides: &[Archive; 2], shared: Shared, rounds: usize) -> Result<Vec<Row>, String> {
    let cases = cases(shared.words);
    let mut lent = Lent::start(Scalars::OPEN);
    let mut rows = Vec::new();
    for vl in LENGTHS {
        let benches = cases.iter().map(|case| Bench::new(sides, shared, case, vl));
        rows.extend(benches.map(|bench| (Row::of(bench.case, vl, shared.words), bench)));
    }
    for (_, bench) in &mut rows {
        bench.warm(&mut lent);
    }
    let (mut last, mut listing) = (Row::of_listing(), Listing::new(sides, shared));
    let mut left = rounds;
    while left > 0 {
        let some = left.min(VISIT);
        left -= some;
        for (row, bench) in &mut rows {
            bench.visit(some, &mut row.rounds, &mut lent)?;
        }
        listing.visit(some, &mut last.rounds)?;
    }
    let rows = rows.into_iter().map(|(row, _)| row);
    Ok(rows.chain([last]).collect())
}

struct Row {
    name: String,
    vl: String,
    bar: f64,
    rounds: Rounds,
}

impl Row {
    fn of(case: &Case, vl: u32, words: Words) -> Row {
        Row {
            name: case.name.clone(),
            vl: vl.to_string(),
            bar: match case.kind {
                _ if case.stepped => f64::INFINITY,
                Kind::Narrow(_) if words == Words::Old => BAR_OF_OLD_NARROWING,
                _ => BAR,
            },
            rounds: Rounds::NONE,
        }
    }

    fn of_listing() -> Row {
        Row {
            name: "listing".to_string(),
            vl: "-".to_string(),
            bar: BAR,
            rounds: Rounds::NONE,
        }
    }

    /// Its line, and whether the median is over the bar.
    fn shown(&mut self) -> (String, bool) {
        let (_, median) = minimum_and_median(&mut self.rounds.ratios);
        let Row { name, vl, bar, .. } = self;
        let (before, after) = (self.rounds.least[BEFORE], self.rounds.least[AFTER]);
        let (least, is_over) = (after / before, median > *bar);
        let mark = if is_over { " OVER" } else { "" };
        let line = format!(
            "| {name} | {vl} | {median:.3} | {before:.2} | {after:.2} | {least:.3} | {bar}{mark} |\n"
        );
        (line, is_over)
    }
}

/// A case at a vector length, on both sides.
struct Bench<'a> {
    sides: &'a [Archive; 2],
    case: &'a Case,
    vl: u32,
    /// Whether both sides must leave the same machine.
    alike: bool,
    /// Where each side has come to.
    machines: [Box<Lent>; 2],
    /// How many passes are timed at a time.
    passes: u32,
    /// How often either side answered otherwise.
    wrong: u32,
}

impl<'a> Bench<'a> {
    fn new(sides: &'a [Archive; 2], shared: Shared, case: &'a Case, vl: u32) -> Bench<'a> {
        let [w12, w13, w14, w15] = W;
        let scalars = Scalars {
            w12,
            w13,
            w14,
            w15,
            v: case.open,
            ..Scalars::OPEN
        };
        Bench {
            sides,
            case,
            vl,
            alike: shared.psel || !case.has_psel(),
            machines: [Lent::start(scalars), Lent::start(scalars)],
            passes: 8,
            wrong: 0,
        }
    }

    /// Finds how many passes a round has; the least time of some, since one may
    /// be interrupted.
    fn warm(&mut self, lent: &mut Lent) {
        let times = (0..3).map(|_| {
            self.time(0, AFTER, lent);
            self.time(0, BEFORE, lent)
        });
        let each = times.fold(f64::MAX, f64::min) * self.case.words.len() as f64;
        self.passes = passes_in_a_round(each);
    }

    /// Nanoseconds a word. A side has its machine in `lent` while it is timed, so
    /// that they do not differ in where it lies.
    fn time(&mut self, round: usize, side: usize, lent: &mut Lent) -> f64 {
        lent.clone_from(&self.machines[side]);
        let functions = black_box(self.sides[side].functions(round));
        let pass = match self.case.stepped {
            true => Functions::steps,
            false => Functions::run,
        };
        let mut time = |count| {
            timed(self.case, self.vl, count, &mut self.wrong, |vl, words| {
                pass(functions, lent, vl, words)
            })
        };
        // The processor has to get used to this side again.
        time(1 + self.passes / 8);
        let time = time(self.passes);
        *self.machines[side] = lent.clone();
        time
    }

    fn visit(&mut self, some: usize, rounds: &mut Rounds, lent: &mut Lent) -> Result<(), String> {
        rounds.more(some, |round, side| {
            by_place(round / 2, || self.time(round, side, lent))
        });
        let problem = if self.wrong > 0 {
            "another answer"
        } else if self.alike && self.machines[AFTER] != self.machines[BEFORE] {
            "the machines differ"
        } else {
            return Ok(());
        };
        Err(format!("{} at VL {}: {problem}", self.case.name, self.vl))
    }
}

/// Words to list, on both sides.
struct Listing<'a> {
    sides: &'a [Archive; 2],
    input: Vec<u8>,
    out: Vec<u8>,
}

impl<'a> Listing<'a> {
    fn new(sides: &'a [Archive; 2], shared: Shared) -> Listing<'a> {
        let words = listing_words(1, u64::MAX)
            .filter(|&word| shared.psel || !is_psel(word))
            .map(|word| shared.words.known(word));
        Listing {
            sides,
            input: words.take(LISTED).flat_map(u32::to_le_bytes).collect(),
            out: vec![0; LINE * LISTED],
        }
    }

    /// What a side answers, and what it leaves of an `out` that had nothing.
    fn listed(&mut self, side: usize) -> ((usize, usize), Vec<u8>) {
        self.out.fill(0xa5);
        let functions = self.sides[side].functions(0);
        let answer = functions.lines(&self.input, &mut self.out);
        (answer, self.out.clone())
    }

    /// Nanoseconds a word, and the answer.
    fn time(&mut self, round: usize, side: usize) -> (f64, (usize, usize)) {
        let functions = self.sides[side].functions(round);
        let (functions, input) = black_box((functions, &self.input[..]));
        let begin = Instant::now();
        let answer = functions.lines(input, &mut self.out);
        (begin.elapsed().as_secs_f64() * 1e9 / LISTED as f64, answer)
    }

    fn visit(&mut self, some: usize, rounds: &mut Rounds) -> Result<(), String> {
        let (expected, text) = self.listed(BEFORE);
        let mut all = expected.0 == self.input.len();
        rounds.more(some, |round, side| {
            // The processor has to get used to this side again.
            self.time(round, side);
            let (time, answer) = by_place(round / 2, || self.time(round, side));
            all &= answer == expected;
            time
        });
        if !all || self.listed(AFTER) != (expected, text) {
            return Err("listing: another answer or text".to_string());
        }
        Ok(())
    }
}
