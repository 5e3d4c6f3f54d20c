//! A lesson's words done by the proved library.

use gighull::{Answer, Machine, Refusal, Setting, Stopped, conflict, permitted};

use crate::lesson::{Lesson, Order};

/// What a stretch left.
#[derive(Clone, Debug)]
pub struct Ran {
    pub end: Machine,
    pub refusal: Option<Refusal>,
    /// How many words were done.
    pub done: usize,
}

/// A lesson that was run, with all its orders.
pub struct Session<'a> {
    pub lesson: &'a Lesson,
    /// The lesson's own, or with another vector length.
    pub setting: Setting,
    /// What of the lesson is left out at that length.
    pub notes: Vec<String>,
    pub start: Machine,
    pub ran: Ran,
    pub orders: Vec<Ordered<'a>>,
}

/// The same words in another order.
pub struct Ordered<'a> {
    pub order: &'a Order,
    pub permitted: Answer<bool>,
    /// Two positions whose words conflict, the earlier first, that the order
    /// turns round.
    pub turned: Option<(u32, u32)>,
    pub ran: Ran,
}

pub fn run(start: &Machine, setting: Setting, words: &[u32]) -> Ran {
    let mut end = start.clone();
    let (refusal, done) = match end.run(setting, words) {
        Ok(done) => (None, done),
        Err(Stopped { refusal, done }) => (Some(refusal), done),
    };
    Ran { end, refusal, done }
}

impl Session<'_> {
    pub fn new(lesson: &Lesson, vl: u32) -> Session<'_> {
        let setting = Setting {
            vl,
            ..lesson.setting
        };
        let words = lesson.stretch();
        let (start, notes) = lesson.machine(vl);
        let ran = run(&start, setting, &words);
        let ordered = |order| ordered(order, &start, setting, &words);
        let orders = lesson.orders.iter().map(ordered).collect();
        Session {
            lesson,
            setting,
            notes,
            start,
            ran,
            orders,
        }
    }
}

fn ordered<'a>(order: &'a Order, start: &Machine, setting: Setting, words: &[u32]) -> Ordered<'a> {
    let positions = &order.positions;
    let permitted = permitted(setting, words, positions);
    let word = |position: u32| words[position as usize];
    // Only a forbidden order has such a pair; the first one is told.
    let turned = (permitted == Ok(false)).then(|| {
        positions.iter().enumerate().find_map(|(place, &late)| {
            let early = positions[place + 1..].iter().copied().find(|&early| {
                early < late && conflict(setting, word(early), word(late)) == Ok(true)
            })?;
            Some((early, late))
        })
    });
    let reordered: Vec<u32> = positions.iter().map(|&position| word(position)).collect();
    Ordered {
        order,
        permitted,
        turned: turned.flatten(),
        ran: run(start, setting, &reordered),
    }
}
