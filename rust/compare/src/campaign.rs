//! Many cases on some threads.

use std::sync::Mutex;

use reference::decode::decode;
use reference::setting::FULL;

use crate::case::{Case, Kind};
use crate::check::{Agreed, check};
use crate::draw::{draw, random_of};
use crate::names::{self, Counts};
use crate::shrink::shrink;
use crate::threads::spread_over;

/// How many cases there were, by what both answered.
#[derive(Clone, Debug, Default)]
pub struct Tally {
    pub answers: [u64; 10],
    /// Of the answers 0, those with a yes or with bytes.
    pub yes: u64,
    /// Of the steps that were done, the word's name.
    pub names: Counts,
}

impl Tally {
    fn add(&mut self, case: &Case, agreed: Agreed) {
        let Agreed { number, yes } = agreed;
        self.answers[number as usize] += 1;
        self.yes += u64::from(yes);
        if let Case::Step { word, .. } = case
            && number == 0
            && let Ok(instruction) = decode(FULL, *word)
        {
            names::count(instruction, &mut self.names);
        }
    }

    fn join(&mut self, other: &Tally) {
        for (sum, count) in self.answers.iter_mut().zip(other.answers) {
            *sum += count;
        }
        names::add(&mut self.names, &other.names);
        self.yes += other.yes;
    }

    /// `0: 5, 3: 7`, then the names if words were done.
    pub fn shown(&self) -> String {
        let answers: Vec<String> = (0..10)
            .filter(|&number| self.answers[number] > 0)
            .map(|number| format!("{number}: {}", self.answers[number]))
            .collect();
        let mut text = format!("answers {}", answers.join(", "));
        if self.yes > 0 {
            text += &format!("; with a yes or bytes {}", self.yes);
        }
        if self.names != Counts::default() {
            text += &format!("; done {}", names::shown(&self.names));
        }
        text
    }
}

/// A case on which the two differ, and what is left of it.
#[derive(Debug)]
pub struct Found {
    pub index: u64,
    pub difference: String,
    pub smallest: Case,
    pub smallest_difference: String,
}

impl Found {
    /// The case made smaller.
    pub fn of(index: u64, case: &Case, difference: String) -> Found {
        let smallest = shrink(case, &|case| check(case).is_err());
        let smallest_difference = check(&smallest).err();
        Found {
            index,
            difference,
            smallest,
            smallest_difference: smallest_difference.unwrap_or_else(|| "none any more".into()),
        }
    }
}

/// How many cases a thread takes at a time.
const CHUNK: u64 = 64;

pub fn campaign(kind: Kind, seed: u64, count: u64, threads: usize) -> Result<Tally, Box<Found>> {
    let tally = Mutex::new(Tally::default());
    let chunks = count.div_ceil(CHUNK);
    let done = spread_over(threads, kind.name(), chunks, count, |chunk| {
        let mut own = Tally::default();
        for index in chunk * CHUNK..count.min((chunk + 1) * CHUNK) {
            let case = draw(kind, &mut random_of(seed, kind, index));
            match check(&case) {
                Ok(agreed) => own.add(&case, agreed),
                Err(difference) => return Err(Box::new((index, case, difference))),
            }
        }
        tally.lock().unwrap().join(&own);
        Ok(())
    });
    done.map_err(|found| {
        let (index, case, difference) = *found;
        Box::new(Found::of(index, &case, difference))
    })?;
    Ok(tally.into_inner().unwrap())
}
