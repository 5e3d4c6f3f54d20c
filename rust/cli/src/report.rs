//! What `run` says of a lesson.

use std::fmt::Write;

use gighull::{Machine, Refusal, decode};

use crate::counter;
use crate::index_unit;
use crate::lesson::{Show, Word, feature_names};
use crate::paint::Paint;
use crate::register::Register;
use crate::run::{Ordered, Ran, Session};
use crate::table::{Kind, Side, block};
use crate::touch::{reason, touch};
use crate::view::{Views, view};

pub struct Report<'a> {
    pub session: &'a Session<'a>,
    pub paint: Paint,
}

impl Report<'_> {
    pub fn text(&self, steps: bool) -> String {
        let mut text = self.heading();
        if steps {
            text.push_str(&self.steps());
        }
        text.push_str(&self.answer());
        let Session {
            lesson, start, ran, ..
        } = self.session;
        let sides = [("before", start), ("after", &ran.end)];
        text.push_str(&self.changes(sides, &lesson.shows, &self.views(ran.done)));
        for ordered in &self.session.orders {
            text.push_str(&self.ordered(ordered));
        }
        text
    }

    fn heading(&self) -> String {
        let Session {
            lesson,
            setting,
            notes,
            ..
        } = self.session;
        let mut text = format!("lesson   {}\n", self.paint.name(&lesson.name));
        let open = lesson.flags.open();
        let features = feature_names(setting.features);
        let vl = setting.vl;
        let _ = writeln!(
            text,
            "setting  VL {vl}; features {features}; open flags {open}"
        );
        for note in notes {
            let _ = writeln!(text, "note     {note}");
        }
        text.push('\n');
        text
    }

    /// The answer in number and words, the words done, PC.
    fn answer(&self) -> String {
        let Session {
            lesson, start, ran, ..
        } = self.session;
        let count = lesson.words.len();
        let mut text = format!("answer   {}\n", self.answer_of(ran.refusal));
        let _ = writeln!(text, "words    {} of {count} done", ran.done);
        if let (Some(_), Some(word)) = (ran.refusal, lesson.words.get(ran.done)) {
            let _ = writeln!(text, "stopped  before {}", self.named(ran.done, word));
        }
        let (from, to) = (start.scalars.pc, ran.end.scalars.pc);
        let _ = writeln!(text, "pc       {from:#x} -> {to:#x}\n");
        text
    }

    fn answer_of(&self, refusal: Option<Refusal>) -> String {
        match refusal {
            None => self.paint.good("0: done"),
            Some(refusal) => self.paint.bad(&refusal.to_string()),
        }
    }

    /// `word 2, line 14: 45283801 UQRSHRNB size=8 …`
    fn named(&self, place: usize, word: &Word) -> String {
        let Word { line, word } = word;
        let read = match decode(self.session.setting, *word) {
            Ok(instruction) => instruction.to_string(),
            Err(_) => "UNDEFINED".to_string(),
        };
        format!("word {place}, line {line}: {word:08x} {read}")
    }

    /// One block a word, the refused one too.
    fn steps(&self) -> String {
        let Session {
            lesson,
            setting,
            start,
            ran,
            ..
        } = self.session;
        let mut text = String::new();
        let mut machine = start.clone();
        // A run that is refused as a whole has not come to its first word.
        let whole = matches!(
            ran.refusal,
            Some(Refusal::Setting | Refusal::FileLength | Refusal::StretchLength)
        );
        let tried = if whole { 0 } else { ran.done + 1 };
        for (place, word) in lesson.words.iter().enumerate().take(tried) {
            let before = machine.clone();
            let refusal = machine.step(*setting, word.word).err();
            text.push_str(&self.step(place, word, refusal, [&before, &machine]));
        }
        text
    }

    /// A word's block: its answer, PC, PSEL's index, and what changed.
    fn step(
        &self,
        place: usize,
        word: &Word,
        refusal: Option<Refusal>,
        [before, after]: [&Machine; 2],
    ) -> String {
        let mut text = self.paint.name(&self.named(place, word));
        let _ = write!(text, "\nanswer   {}", self.answer_of(refusal));
        let (from, to) = (before.scalars.pc, after.scalars.pc);
        let _ = writeln!(text, "; pc {from:#x} -> {to:#x}");
        if refusal.is_none()
            && let Some(index) = self.index(word, before)
        {
            let _ = writeln!(text, "index    {index}");
        }
        let shows = self.shows_of_changed(before, after);
        let views = self.views(place + 1);
        let sides = [("before", before), ("after", after)];
        text.push_str(&self.changes(sides, &shows, &views));
        text.push('\n');
        text
    }

    /// How a word that was done chose its element, if it chose one.
    fn index(&self, word: &Word, before: &Machine) -> Option<String> {
        let setting = self.session.setting;
        let instruction = decode(setting, word.word).ok()?;
        index_unit::told(instruction, before, setting.vl)
    }

    /// What registers hold after the first words of the stretch.
    fn views(&self, words: usize) -> Views {
        Views::of(self.session.lesson, self.session.setting, words)
    }

    /// What is to be shown of two machines in the middle of a lesson.
    fn shows_of_changed(&self, before: &Machine, after: &Machine) -> Vec<Show> {
        let vl = self.session.setting.vl;
        let shows = self.session.lesson.shows.iter().copied();
        shows
            .filter(|show| changed(show_register(show), before, after, vl))
            .collect()
    }

    /// Each register that differs, and those that are to be shown.
    fn changes(&self, sides: [(&str, &Machine); 2], shows: &[Show], views: &Views) -> String {
        let vl = self.session.setting.vl;
        let [(_, before), (_, after)] = sides;
        let mut text = String::new();
        for register in Register::of_files() {
            let changed = changed(register, before, after, vl);
            let mut told: Vec<Show> = (shows.iter().copied())
                .filter(|show| show_register(show) == register)
                .collect();
            // A counter, or elements that are too wide, may hide what changed.
            let tells_all = |show: &Show| match *show {
                Show::Elements(shown) => {
                    view(register, Some(shown.width), &[before, after], vl) == shown
                }
                Show::Counter(_) => false,
            };
            if changed && !told.iter().any(tells_all) {
                let elements = views.elements(register, &[before, after], vl);
                told.push(Show::Elements(elements));
            }
            let sides = if changed {
                &sides[..]
            } else {
                &[("unchanged", after)]
            };
            for show in told {
                text.push_str(&self.told(show, sides, views));
            }
        }
        if text.is_empty() {
            text.push_str("no register changed\n");
        }
        text
    }

    fn told(&self, show: Show, sides: &[(&str, &Machine)], views: &Views) -> String {
        let vl = self.session.setting.vl;
        match show {
            Show::Elements(elements) => {
                let values: Vec<Vec<i128>> = (sides.iter())
                    .map(|(_, machine)| views.values(elements, machine, vl))
                    .collect();
                let sides: Vec<Side> = (sides.iter().zip(&values))
                    .map(|(&(name, _), values)| Side { name, values })
                    .collect();
                let kind = match elements.register {
                    Register::P(_) => Kind::Truths,
                    _ => Kind::Numbers,
                };
                block(&elements.to_string(), &sides, kind, self.paint)
            }
            Show::Counter(k) => {
                let label = format!("{:<4}", format!("pn{k}"));
                let mut text = String::new();
                for (name, machine) in sides {
                    let bits = machine.counter(k).expect("the lesson names a P register");
                    let words = counter::words(bits, vl);
                    let label = self.paint.name(&label);
                    let _ = writeln!(text, "{label}  {name}  {bits:#06x}: {words}");
                }
                text
            }
        }
    }

    fn ordered(&self, ordered: &Ordered) -> String {
        let Ordered {
            order,
            permitted,
            turned,
            ran,
        } = ordered;
        let numbers: Vec<String> = order.positions.iter().map(u32::to_string).collect();
        let title = format!("order {}, line {}", numbers.join(" "), order.line);
        let mut text = format!("\n{}\n", self.paint.name(&title));
        let told = match (permitted, turned) {
            (Ok(true), _) => self.paint.good("permitted"),
            (Ok(false), Some(pair)) => {
                format!("{}: {}", self.paint.bad("forbidden"), self.why(*pair))
            }
            (Ok(false), None) => self.paint.bad("forbidden"),
            (Err(refusal), _) => format!("no answer: {}", self.paint.bad(&refusal.to_string())),
        };
        let _ = writeln!(text, "{told}");
        text.push_str(&self.ended(ran, *permitted == Ok(true)));
        text
    }

    /// Why a pair of words must stay in its order.
    fn why(&self, (early, late): (u32, u32)) -> String {
        let touch_of = |position: u32| {
            let word = self.session.lesson.words.get(position as usize)?;
            let instruction = decode(self.session.setting, word.word).ok()?;
            Some(touch(instruction))
        };
        let names = [early, late].map(|position| format!("word {position}"));
        let reason = touch_of(early)
            .zip(touch_of(late))
            .and_then(|(a, b)| reason((&names[0], &a), (&names[1], &b)));
        let reason = reason.unwrap_or_else(|| "they conflict".to_string());
        format!("{reason}, and word {late} comes first now")
    }

    fn ended(&self, ran: &Ran, permitted: bool) -> String {
        let first = &self.session.ran;
        let count = self.session.lesson.words.len();
        let run = if permitted {
            "run in this order"
        } else {
            "run in this order all the same"
        };
        let answer = self.answer_of(ran.refusal);
        let mut text = format!(
            "{run}: answer {answer}, {} of {count} words done\n",
            ran.done
        );
        if first.refusal.is_some() {
            text.push_str("the lesson's own order was refused, so nothing is promised of others\n");
        }
        if ran.end == first.end && ran.refusal == first.refusal {
            let luck = if permitted {
                ""
            } else {
                " (with these contents: nothing promises it)"
            };
            let _ = writeln!(text, "both ended alike, in every byte and scalar{luck}");
        } else {
            text.push_str("it ended differently:\n");
            let shows = self.shows_of_changed(&first.end, &ran.end);
            let sides = [("lesson", &first.end), ("this order", &ran.end)];
            text.push_str(&self.changes(sides, &shows, &self.views(count)));
        }
        text
    }
}

fn show_register(show: &Show) -> Register {
    match *show {
        Show::Elements(elements) => elements.register,
        Show::Counter(k) => Register::P(k),
    }
}

fn changed(register: Register, before: &Machine, after: &Machine, vl: u32) -> bool {
    register.bytes(before, vl) != register.bytes(after, vl)
}
