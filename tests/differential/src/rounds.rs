//! Classes of states, round by round, by signatures.

use crate::model::Model;
use std::collections::{BTreeMap, BTreeSet};

/// The states of two models, numbered through, the second's after the first's.
struct Both {
    answers: Vec<Vec<bool>>,
    successors: Vec<Vec<usize>>,
    initials: [usize; 2],
}

impl Both {
    fn new(first: &Model, second: &Model) -> Both {
        let shift = first.states.len();
        let mut both = Both {
            answers: Vec::new(),
            successors: Vec::new(),
            initials: [first.initial, shift + second.initial],
        };
        for state in &first.states {
            both.answers.push(state.answers.clone());
            both.successors.push(state.successors.clone());
        }
        for state in &second.states {
            both.answers.push(state.answers.clone());
            both.successors
                .push(state.successors.iter().map(|t| shift + t).collect());
        }
        both
    }
}

/// For each signature the least place that has it.
pub fn least_with_same<S: Ord>(signatures: Vec<S>) -> Vec<usize> {
    let mut least = BTreeMap::new();
    let mut classes = Vec::new();
    for (place, signature) in signatures.into_iter().enumerate() {
        classes.push(*least.entry(signature).or_insert(place));
    }
    classes
}

#[derive(Clone, Copy, Debug, PartialEq, Eq)]
pub enum Verdict {
    Alike,
    Different,
}

/// A comparison after some rounds.
pub struct Rounds {
    both: Both,
    classes: Vec<usize>,
    count: usize,
    last_split_nothing: bool,
}

impl Rounds {
    pub fn open(first: &Model, second: &Model) -> Rounds {
        let both = Both::new(first, second);
        let classes = least_with_same(both.answers.clone());
        Rounds {
            both,
            classes,
            count: 0,
            last_split_nothing: false,
        }
    }

    /// The number of rounds made.
    pub fn count(&self) -> usize {
        self.count
    }

    /// The class of each state.
    pub fn classes(&self) -> &[usize] {
        &self.classes
    }

    /// The number of classes.
    pub fn number_of_classes(&self) -> usize {
        self.classes.iter().collect::<BTreeSet<_>>().len()
    }

    pub fn verdict(&self) -> Option<Verdict> {
        let [first, second] = self.both.initials;
        if self.classes[first] != self.classes[second] {
            Some(Verdict::Different)
        } else if self.last_split_nothing {
            Some(Verdict::Alike)
        } else {
            None
        }
    }

    pub fn round(&mut self) {
        let signature = |state: usize| {
            let onward: BTreeSet<usize> = self.both.successors[state]
                .iter()
                .map(|&t| self.classes[t])
                .collect();
            (self.classes[state], onward)
        };
        let classes = least_with_same((0..self.classes.len()).map(signature).collect());
        self.last_split_nothing = classes == self.classes;
        self.classes = classes;
        self.count += 1;
    }

    /// Makes rounds until the comparison is closed.
    pub fn close(&mut self) -> Verdict {
        loop {
            match self.verdict() {
                Some(verdict) => return verdict,
                None => self.round(),
            }
        }
    }
}
