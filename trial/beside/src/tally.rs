//! What was compared, in figures.

use std::fmt;

use crate::compare::{Answer, Outcome};
use crate::drawn::{Answers, Drawn};
use crate::stored::model::Carried;

#[derive(Default)]
pub struct Tally {
    drawn: Drawn,
    answers: Answers,
    rooms: usize,
    labelled: usize,
    marks: usize,
    resolved: usize,
    distances: usize,
    stored: Carried,
    tags: u128,
}

impl Tally {
    /// A unit that is drawn.
    pub fn add_unit(&mut self, unit: &[u8]) {
        self.drawn.add(unit);
    }

    /// A unit on which both sides agree.
    pub fn add_outcome(&mut self, outcome: &Outcome, rooms: bool) {
        self.answers.add(outcome.answer);
        if let Some(amount) = &outcome.amount {
            self.rooms += usize::from(rooms);
            self.labelled += amount.labelled;
            self.marks += amount.marks;
            self.resolved += amount.resolved;
            self.distances += amount.distances;
            self.stored.add_all(&amount.stored);
            self.tags |= amount.tags;
        }
    }
}

impl fmt::Display for Tally {
    fn fmt(&self, f: &mut fmt::Formatter<'_>) -> fmt::Result {
        writeln!(f, "{}", self.drawn.said("units"))?;
        writeln!(f, "  by answer: {}", self.answers)?;
        writeln!(f, "  by bytes: {}", self.drawn.by_size())?;
        let (labelled, marks, tags) = (self.labelled, self.marks, self.tags.count_ones());
        writeln!(
            f,
            "  labelled: {labelled} records of {tags} tags, {marks} marks"
        )?;
        let (resolved, distances) = (self.resolved, self.distances);
        writeln!(f, "  resolved: {resolved} records, {distances} distances")?;
        writeln!(f, "  stored and restored: {}", self.stored)?;
        writeln!(f, "  lent just enough and too little: {} units", self.rooms)
    }
}

impl fmt::Display for Answer {
    fn fmt(&self, f: &mut fmt::Formatter<'_>) -> fmt::Result {
        match self {
            Self::Code => write!(f, "code"),
            Self::Refused(number) => write!(f, "refused {number}"),
            Self::Panic(number) => write!(f, "panic {number}"),
        }
    }
}
