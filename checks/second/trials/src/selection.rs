//! Selects, of things that have features, a few that show many of them.

use std::collections::{BTreeMap, BTreeSet};

/// What a candidate shows, by the numbers of the features.
#[derive(Clone, Debug)]
pub struct Shows {
    pub number: u64,
    pub size: usize,
    pub features: Vec<usize>,
}

/// The features by number, with what each counts for.
#[derive(Default)]
pub struct Features<F> {
    known: BTreeMap<F, usize>,
    worth: Vec<f64>,
}

impl<F: Ord> Features<F> {
    pub fn new() -> Self {
        Features {
            known: BTreeMap::new(),
            worth: Vec::new(),
        }
    }

    /// The number of a feature, which is a new one where it was not known.
    pub fn number(&mut self, feature: F, worth: f64) -> usize {
        *self.known.entry(feature).or_insert_with(|| {
            self.worth.push(worth);
            self.worth.len() - 1
        })
    }

    pub fn known(&self) -> &BTreeMap<F, usize> {
        &self.known
    }

    pub fn worth(&self) -> Vec<f64> {
        self.worth.clone()
    }
}

/// The candidates that were taken so far.
pub struct Selection {
    numbers: BTreeSet<u64>,
    bytes: usize,
    shown: BTreeSet<usize>,
    /// What each feature still counts for.
    worth: Vec<f64>,
}

impl Selection {
    pub fn new(worth: Vec<f64>) -> Selection {
        Selection {
            numbers: BTreeSet::new(),
            bytes: 0,
            shown: BTreeSet::new(),
            worth,
        }
    }

    pub fn take(&mut self, candidate: &Shows) {
        self.numbers.insert(candidate.number);
        self.bytes += candidate.size;
        self.shown.extend(&candidate.features);
        for &feature in &candidate.features {
            self.worth[feature] *= 0.3;
        }
    }

    fn gain(&self, candidate: &Shows) -> f64 {
        let shown: f64 = candidate.features.iter().map(|&at| self.worth[at]).sum();
        // Even the smallest takes its place among those chosen.
        shown / (candidate.size as f64 + 600.0)
    }

    /// Takes again and again the candidate that shows most for its size, until
    /// so many are taken. What was shown before counts for less each time, and
    /// together they have at most so many bytes.
    pub fn fill(&mut self, mut left: Vec<&Shows>, count: usize, bytes: usize) {
        while self.numbers.len() < count {
            let room = bytes.saturating_sub(self.bytes);
            let best = left
                .iter()
                .enumerate()
                .filter(|(_, candidate)| candidate.size <= room)
                .map(|(at, candidate)| (self.gain(candidate), at))
                .reduce(|best, next| if next.0 > best.0 { next } else { best });
            match best {
                Some((_, at)) => self.take(left.remove(at)),
                None => break,
            }
        }
    }

    /// The features of those that were taken.
    pub fn shown(&self) -> &BTreeSet<usize> {
        &self.shown
    }

    pub fn into_numbers(self) -> BTreeSet<u64> {
        self.numbers
    }
}
