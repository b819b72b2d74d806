//! The units or listings that were drawn and the answers to them, in figures.

use std::collections::BTreeMap;
use std::fmt;
use std::hash::{DefaultHasher, Hash, Hasher};

use crate::compare::Answer;

/// Sizes in bytes up to which units are counted together; longer ones are refused for that.
const SIZES: [usize; 8] = [9, 63, 127, 255, 1_023, 4_095, 65_535, 1_048_576];

#[derive(Default)]
pub struct Drawn {
    units: usize,
    /// A hash of each unit, to count the distinct ones.
    hashes: Vec<u64>,
    sizes: [usize; SIZES.len() + 1],
    largest: usize,
}

impl Drawn {
    pub fn add(&mut self, unit: &[u8]) {
        self.units += 1;
        let mut hasher = DefaultHasher::new();
        unit.hash(&mut hasher);
        self.hashes.push(hasher.finish());
        let class = SIZES.iter().position(|&most| unit.len() <= most);
        self.sizes[class.unwrap_or(SIZES.len())] += 1;
        self.largest = self.largest.max(unit.len());
    }

    pub fn by_size(&self) -> String {
        let sizes = SIZES.iter().zip(self.sizes);
        let sizes = sizes.map(|(most, count)| format!("to {most}: {count}"));
        let longer = self.sizes[SIZES.len()];
        format!("{}; longer: {longer}", joined(sizes))
    }

    /// How many there were, by this name.
    pub fn said(&self, noun: &str) -> String {
        let Self { units, largest, .. } = self;
        let distinct = self.distinct();
        format!("{units} {noun}, {distinct} distinct, the largest of {largest} bytes")
    }

    fn distinct(&self) -> usize {
        let mut hashes = self.hashes.clone();
        hashes.sort_unstable();
        hashes.dedup();
        hashes.len()
    }
}

/// How often each answer was given.
#[derive(Default)]
pub struct Answers(BTreeMap<Answer, usize>);

impl Answers {
    pub fn add(&mut self, answer: Answer) {
        *self.0.entry(answer).or_default() += 1;
    }

    /// How many of the answers are so.
    pub fn count(&self, is_so: impl Fn(Answer) -> bool) -> usize {
        let found = self.0.iter().filter(|&(answer, _)| is_so(*answer));
        found.map(|(_, count)| count).sum()
    }
}

impl fmt::Display for Answers {
    fn fmt(&self, f: &mut fmt::Formatter<'_>) -> fmt::Result {
        let answers = self.0.iter();
        let answers = answers.map(|(answer, count)| format!("{answer}: {count}"));
        write!(f, "{}", joined(answers))
    }
}

pub fn joined(parts: impl Iterator<Item = String>) -> String {
    parts.collect::<Vec<_>>().join("; ")
}
