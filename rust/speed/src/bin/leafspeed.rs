//! `leafspeed [ROUNDS [cleared]]`
//!
//! Times stretches of 256 words through the proved library's run and through
//! the baseline's, in ns a word: for each form (each of the sixteen narrowing
//! words) and element size 256 words with other fields and registers, and mixed
//! stretches of all forms. At each of the five vector lengths; the bars are at VL
//! 128 and 2048. Both sides start from the same machine, and must end alike in
//! every answer and byte. A round times both, the one that goes first changing
//! from round to round, and gives a ratio proved/baseline; the table has the
//! median and the minimum of the rounds' ratios, each side's least time, and
//! the ratio of these. (A round in which the baseline alone was interrupted
//! makes a minimum that says nothing: read the median.) The last rows time
//! single steps, for information: words that are done, of each form, and words
//! that are refused, undefined and for a closed flag. Their one bar is 2.5, at VL
//! 128.
//!
//! The files are random, and no word of a form's row writes what one of them
//! reads (but for what a word with T keeps of its own destination), so that the
//! sources stay random: PSEL's element is true about every second time. There the
//! baseline copies VL/64 bytes, and else it fills them, whatever the size; so the
//! bar of PSEL is 1.05 at both lengths. The row "PSEL B, false" is fills alone,
//! with no bar of its own.
//!
//! With `cleared` every file is zeros at the start, as for a long session. Then
//! no element of a predicate is true, so that PEXT only clears, which the
//! baseline does at once too: its bar is 1.05 there.

use std::hint::black_box;
use std::process::ExitCode;

use reference::layout;
use speed::cases::{Case, FEATURES, Files, Kind, LENGTHS, Machine, UQRSHRNB, W, Words, cases};
use speed::fail;
use speed::timing::{Outcome, Rounds, passes_in_a_round, steps, timed};

const DEFAULT_ROUNDS: usize = 201;

fn main() -> ExitCode {
    let arguments: Vec<String> = std::env::args().skip(1).collect();
    let arguments: Vec<&str> = arguments.iter().map(String::as_str).collect();
    let (rounds, files) = match &arguments[..] {
        [] => (Ok(DEFAULT_ROUNDS), Files::Random),
        [rounds] => (rounds.parse(), Files::Random),
        [rounds, "cleared"] => (rounds.parse(), Files::Cleared),
        _ => return fail("leafspeed", "usage: leafspeed [ROUNDS [cleared]]", 2),
    };
    let rounds = match rounds {
        Ok(rounds) if rounds > 0 => rounds,
        _ => return fail("leafspeed", "ROUNDS is not a number above 0", 2),
    };
    println!("{rounds} rounds; {files:?} files; ratio proved/baseline; ns a word");
    println!("| form | VL | median | minimum | proved | baseline | least/least | bar |");
    println!("|---|---|---|---|---|---|---|---|");
    let mut over = 0;
    for vl in LENGTHS {
        for case in cases(Words::All) {
            match measure(&case, vl, rounds, files) {
                Ok(row) => {
                    let bar = bar(&case, vl, files);
                    let missed = row.median > bar;
                    over += usize::from(missed);
                    println!(
                        "| {} | {vl} | {:.3} | {:.3} | {:.1} | {:.1} | {:.3} | {bar}{} |",
                        case.name,
                        row.median,
                        row.minimum,
                        row.proved,
                        row.baseline,
                        row.proved / row.baseline,
                        if missed { " MISSED" } else { "" }
                    );
                }
                Err(problem) => return fail("leafspeed", &problem, 1),
            }
        }
    }
    println!("machines equal after every case; {over} over their bar");
    ExitCode::SUCCESS
}

/// What the median should not be over: at VL 128 and at VL 2048, infinite where
/// there is no bar.
fn bar(case: &Case, vl: u32, files: Files) -> f64 {
    let bars = match (case.kind, files) {
        _ if case.stepped => [2.5, f64::INFINITY],
        (Kind::Narrow(UQRSHRNB), _) => [1.05, 0.7],
        // op:U is 01: SHRN and RSHRN, which do not saturate.
        (Kind::Narrow(bits), _) if bits >> 2 == 0b01 => [1.05, 1.2],
        (Kind::Narrow(_), _) => [1.05, 0.9],
        (Kind::Row(layout::Row::Luti4c | layout::Row::Luti4s), _) => [1.05, 0.4],
        (Kind::Row(layout::Row::Psel), _) | (Kind::Row(_), Files::Cleared) => [1.05, 1.05],
        (Kind::Row(_), Files::Random) => [1.05, 0.4],
        (Kind::Mixed, _) => [1.0, 0.6],
        (Kind::False | Kind::Refused, _) => [f64::INFINITY; 2],
    };
    match vl {
        128 => bars[0],
        2048 => bars[1],
        _ => f64::INFINITY,
    }
}

struct Row {
    median: f64,
    minimum: f64,
    proved: f64,
    baseline: f64,
}

fn machines(files: Files) -> (Machine<gighull::Scalars>, Machine<baseline::Scalars>) {
    let plain = baseline::Scalars {
        w: W,
        pc: 0,
        v: true,
        s: true,
        t: true,
    };
    let plain = Machine::start(files, plain);
    let [w12, w13, w14, w15] = W;
    let proved = Machine {
        z: plain.z.clone(),
        p: plain.p.clone(),
        zt: plain.zt.clone(),
        scalars: gighull::Scalars {
            w12,
            w13,
            w14,
            w15,
            ..gighull::Scalars::OPEN
        },
    };
    (proved, plain)
}

/// A stretch or its steps, in a form that `timed` calls without knowing it.
type Run<Scalars> = fn(&mut Machine<Scalars>, u32, &[u32]) -> Outcome;

fn proved_run(machine: &mut Machine<gighull::Scalars>, vl: u32, words: &[u32]) -> Outcome {
    let Machine { z, p, zt, scalars } = machine;
    let mut done = 0;
    let number = gighull::ffi::run(z, p, zt, scalars, vl, FEATURES, words, &mut done);
    (number, done)
}

fn proved_step(machine: &mut Machine<gighull::Scalars>, vl: u32, words: &[u32]) -> Outcome {
    let Machine { z, p, zt, scalars } = machine;
    steps(words, |word| {
        gighull::step(z, p, zt, scalars, vl, FEATURES, word)
    })
}

fn plain_run(machine: &mut Machine<baseline::Scalars>, vl: u32, words: &[u32]) -> Outcome {
    let Machine { z, p, zt, scalars } = machine;
    let mut files = baseline::Files { z, p, zt0: zt };
    let features = FEATURES;
    let outcome = baseline::run(
        baseline::Setting { vl, features },
        words,
        &mut files,
        scalars,
    );
    (outcome.number, outcome.done)
}

fn plain_step(machine: &mut Machine<baseline::Scalars>, vl: u32, words: &[u32]) -> Outcome {
    let Machine { z, p, zt, scalars } = machine;
    let mut files = baseline::Files { z, p, zt0: zt };
    let features = FEATURES;
    let setting = baseline::Setting { vl, features };
    steps(words, |word| {
        baseline::step(setting, word, &mut files, scalars)
    })
}

/// One side: how it runs, its machine, and how often it answered otherwise.
struct Side<Scalars> {
    run: Run<Scalars>,
    machine: Machine<Scalars>,
    wrong: u32,
}

impl<Scalars> Side<Scalars> {
    /// Nanoseconds a word.
    fn time(&mut self, case: &Case, vl: u32, count: u32) -> f64 {
        let (run, machine) = (black_box(self.run), &mut self.machine);
        timed(case, vl, count, &mut self.wrong, |vl, words| {
            run(machine, vl, words)
        })
    }
}

fn measure(case: &Case, vl: u32, count: usize, files: Files) -> Result<Row, String> {
    let (mut proved, mut plain) = sides(case, files);
    let warm = 8;
    proved.time(case, vl, warm);
    let each = plain.time(case, vl, warm) * case.words.len() as f64;
    let passes = passes_in_a_round(each);
    let mut rounds = Rounds::NONE;
    rounds.more(count, |_, side| match side {
        0 => proved.time(case, vl, passes),
        _ => plain.time(case, vl, passes),
    });
    if proved.wrong + plain.wrong > 0 {
        return Err(format!("{} at VL {vl}: another answer", case.name));
    }
    let (m, n) = (proved.machine, plain.machine);
    let (s, t) = (m.scalars, n.scalars);
    let same = (m.z, m.p, m.zt) == (n.z, n.p, n.zt)
        && ([s.w12, s.w13, s.w14, s.w15], s.pc, s.v, s.s, s.t) == (t.w, t.pc, t.v, t.s, t.t);
    if !same {
        return Err(format!("{} at VL {vl}: the machines differ", case.name));
    }
    let ratios = &mut rounds.ratios;
    ratios.sort_by(f64::total_cmp);
    Ok(Row {
        median: ratios[ratios.len() / 2],
        minimum: ratios[0],
        proved: rounds.least[0],
        baseline: rounds.least[1],
    })
}

fn sides(case: &Case, files: Files) -> (Side<gighull::Scalars>, Side<baseline::Scalars>) {
    let (mut proved, mut plain) = machines(files);
    proved.scalars.v = case.open;
    plain.scalars.v = case.open;
    let proved = Side {
        run: if case.stepped {
            proved_step
        } else {
            proved_run
        },
        machine: proved,
        wrong: 0,
    };
    let plain = Side {
        run: if case.stepped { plain_step } else { plain_run },
        machine: plain,
        wrong: 0,
    };
    (proved, plain)
}
