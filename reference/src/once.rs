//! A list of questions in the order they came up, each kept once.

use std::collections::HashSet;
use std::hash::Hash;

pub struct Once<Q> {
    list: Vec<Q>,
    seen: HashSet<Q>,
}

impl<Q: Clone + Eq + Hash> Once<Q> {
    pub fn new() -> Once<Q> {
        Once {
            list: Vec::new(),
            seen: HashSet::new(),
        }
    }

    pub fn add(&mut self, question: Q) {
        if self.seen.insert(question.clone()) {
            self.list.push(question);
        }
    }

    pub fn count(&self) -> usize {
        self.list.len()
    }

    pub fn into_list(self) -> Vec<Q> {
        self.list
    }
}

impl<Q: Clone + Eq + Hash> Default for Once<Q> {
    fn default() -> Once<Q> {
        Once::new()
    }
}

/// What every list of questions must be: decided by its seed, about as long
/// as it is meant to be, and without duplicates.
#[cfg(test)]
pub fn check_list<Q>(generate: fn(u64) -> Vec<Q>, lengths: std::ops::RangeInclusive<usize>)
where
    Q: Clone + Eq + Hash + std::fmt::Debug,
{
    assert_eq!(generate(7), generate(7));
    assert_ne!(generate(7), generate(8));
    for seed in [0, 1, 2, u64::MAX] {
        let questions = generate(seed);
        assert!(lengths.contains(&questions.len()), "{}", questions.len());
        let distinct: HashSet<&Q> = questions.iter().collect();
        assert_eq!(distinct.len(), questions.len());
    }
}
