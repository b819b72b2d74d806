//! What was compared, in figures.

use std::fmt;

use super::Outcome;
use crate::compare::Answer;
use crate::drawn::{Answers, Drawn};

/// The refusals of reading have numbers up to this.
const READING: u32 = 5;

#[derive(Default)]
pub struct Tally {
    drawn: Drawn,
    answers: Answers,
    labelled: usize,
    marks: usize,
    resolved: usize,
    /// Units that stripping changed, and how many bytes of them.
    changed: usize,
    bytes: usize,
    rooms: usize,
}

impl Tally {
    /// A unit that is drawn.
    pub fn add_unit(&mut self, unit: &[u8]) {
        self.drawn.add(unit);
    }

    /// A unit that has the same answers stripped.
    pub fn add_outcome(&mut self, outcome: &Outcome) {
        self.answers.add(outcome.answer);
        self.labelled += outcome.labelled;
        self.marks += outcome.marks;
        self.resolved += outcome.resolved;
        self.changed += usize::from(outcome.changed > 0);
        self.bytes += outcome.changed;
        self.rooms += usize::from(outcome.rooms);
    }
}

impl fmt::Display for Tally {
    fn fmt(&self, f: &mut fmt::Formatter<'_>) -> fmt::Result {
        writeln!(f, "{}", self.drawn.said("units"))?;
        let in_reading = |answer| matches!(answer, Answer::Refused(number) if number <= READING);
        let resolved = self.answers.count(|answer| answer == Answer::Code);
        let reading = self.answers.count(in_reading);
        let later = self.answers.count(|_| true) - reading - resolved;
        writeln!(
            f,
            "  refused in reading: {reading}; refused later: {later}; resolved: {resolved}"
        )?;
        writeln!(f, "  by answer: {}", self.answers)?;
        writeln!(f, "  by bytes: {}", self.drawn.by_size())?;
        let (labelled, marks) = (self.labelled, self.marks);
        writeln!(f, "  labelled: {labelled} records, {marks} marks")?;
        writeln!(f, "  resolved: {} records", self.resolved)?;
        let (changed, bytes) = (self.changed, self.bytes);
        writeln!(f, "  stripping changed: {bytes} bytes of {changed} units")?;
        writeln!(f, "  lent just enough and too little: {} units", self.rooms)
    }
}
