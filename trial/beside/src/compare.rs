//! A unit given to the library and to the published assembler.

use delzhomo::{Assembler, lower_into, measure, resolve_into, restore_into, store_into};
use oracle::answer::Stop;

use crate::difference::{Compared, Difference, holds, refusal, same, stopped};
use crate::lent::Lent;
use crate::listing::{KEPT, NODE, same_listing, written};
use crate::published::{self, Code, Made};
use crate::run::Trial;
use crate::stored::model::Carried;
use crate::tally::Tally;

/// What is lent beyond what a unit takes.
pub(crate) const SPARE_BYTES: usize = 40;
pub(crate) const SPARE_WORDS: usize = 5;

/// A unit's answer, and how much of it was compared.
pub struct Outcome {
    pub answer: Answer,
    /// None if it does not lower.
    pub amount: Option<Amount>,
}

pub struct Amount {
    /// Records and label marks of the labelled listing.
    pub labelled: usize,
    pub marks: usize,
    /// Records and distances of the resolved one.
    pub resolved: usize,
    pub distances: usize,
    /// Fields of the stored one.
    pub stored: Carried,
    /// The tags that occur, a bit for each.
    pub tags: u128,
}

#[derive(Debug, Clone, Copy, PartialEq, Eq, PartialOrd, Ord)]
pub enum Answer {
    Code,
    Refused(u32),
    /// The published assembler panics where document 01 has this number.
    Panic(u32),
}

/// The library, with the buffers that it is lent.
pub struct Library {
    pub(crate) listing: Lent<u8>,
    pub(crate) marks: Lent<u32>,
    pub(crate) code: Lent<u8>,
    /// The crate's own buffers, kept from unit to unit.
    pub(crate) assembler: Assembler,
}

impl Library {
    pub fn new() -> Self {
        Self {
            listing: Lent::filled_with(0xA5),
            marks: Lent::filled_with(0xA5C3_960F),
            code: Lent::filled_with(0x5A),
            assembler: Assembler::new(),
        }
    }

    /// Everything that either side says of a unit; with `rooms`, also with room that just
    /// suffices and with too little.
    fn compare(&mut self, unit: &[u8], rooms: bool) -> Compared<Outcome> {
        match published::assemble(unit) {
            Ok(made) => {
                self.compare_lowered(unit, &made)?;
                self.compare_code(&made, made.listing.len() + SPARE_BYTES)?;
                if rooms {
                    self.compare_rooms(unit, &made)?;
                }
                Ok(outcome(&made))
            }
            Err(stop) => {
                self.compare_stopped(unit, stop)?;
                Ok(stopped_outcome(stop))
            }
        }
    }

    /// A refusal, with room for more than most units of this length take.
    fn compare_stopped(&mut self, unit: &[u8], stop: Stop) -> Compared<()> {
        stopped("measure", measure(unit), stop)?;
        let listing = self.listing.lend(4 * unit.len() + SPARE_BYTES);
        let marks = self.marks.lend(unit.len() / 8 + SPARE_WORDS);
        stopped("lower", lower_into(unit, listing, marks), stop)?;
        self.kept_lowered("lower", 0, 0)
    }

    fn compare_lowered(&mut self, unit: &[u8], made: &Made) -> Compared<()> {
        same("measure", measure(unit), Ok(made.totals))?;
        self.lower(unit, made, SPARE_BYTES, SPARE_WORDS)
    }

    /// Lowers with so much room to spare.
    pub(crate) fn lower(
        &mut self,
        unit: &[u8],
        made: &Made,
        bytes: usize,
        words: usize,
    ) -> Compared<()> {
        let (length, labels) = (made.listing.len(), made.marks.len());
        let listing = self.listing.lend(length + bytes);
        let marks = self.marks.lend(labels + words);
        same("lower", lower_into(unit, listing, marks), Ok(made.totals))?;
        same_listing("lower", self.listing.first(length), &made.listing, NODE)?;
        same_marks(self.marks.first(labels), &made.marks)?;
        self.kept_lowered("lower", length, labels)
    }

    /// Resolves, stores and restores into so many bytes. Each is given the published listing, so that none hangs on another, nor on
    /// lowering.
    pub(crate) fn compare_code(&mut self, made: &Made, room: usize) -> Compared<()> {
        let out = &mut self.code;
        let resolved = match &made.code {
            Ok(code) => Ok(&code.resolved[..]),
            Err(distant) => Err(refusal(*distant)),
        };
        let resolve = |out: &mut [u8]| resolve_into(&made.listing, &made.marks, out);
        written("resolve", out, room, resolved, resolve)?;
        let Ok(Code { resolved, stored }) = &made.code else {
            return Ok(());
        };
        let store = |out: &mut [u8]| store_into(resolved, out);
        written("store", out, room, Ok(stored), store)?;
        let restore = |out: &mut [u8]| restore_into(stored, out);
        written("restore", out, room, Ok(resolved), restore)
    }

    pub(crate) fn kept_lowered(
        &self,
        asked: &'static str,
        bytes: usize,
        words: usize,
    ) -> Compared<()> {
        let listing = self.listing.is_kept_from(bytes);
        holds(asked, listing, KEPT)?;
        let marks = self.marks.is_kept_from(words);
        holds(
            asked,
            marks,
            "words past the last label, after a refusal all, stay as they were",
        )
    }
}

impl Trial for Library {
    type Tally = Tally;

    fn try_unit(&mut self, unit: &[u8], rooms: bool, tally: &mut Tally) -> Compared<()> {
        tally.add_unit(unit);
        let outcome = self.compare(unit, rooms)?;
        tally.add_outcome(&outcome, rooms);
        Ok(())
    }
}

fn outcome(made: &Made) -> Outcome {
    let mut amount = Amount {
        labelled: made.totals.records,
        marks: made.marks.len(),
        resolved: 0,
        distances: 0,
        stored: Carried::default(),
        tags: made.tags,
    };
    let answer = match &made.code {
        Ok(code) => {
            amount.resolved = made.totals.records;
            amount.distances = made.distances;
            amount.stored.add_listing(&code.stored);
            Answer::Code
        }
        Err(refusal) => Answer::Refused(refusal.number),
    };
    Outcome {
        answer,
        amount: Some(amount),
    }
}

fn stopped_outcome(stop: Stop) -> Outcome {
    let answer = match stop {
        Stop::Refused(refusal) => Answer::Refused(refusal.number),
        // without a number it was a difference
        Stop::Panicked(number) => Answer::Panic(number.unwrap_or_default()),
    };
    Outcome {
        answer,
        amount: None,
    }
}

pub(crate) fn same_marks(library: &[u32], published: &[u32]) -> Compared<()> {
    let mut pairs = library.iter().zip(published);
    match pairs.position(|(a, b)| a != b) {
        None => Ok(()),
        Some(label) => Err(Difference {
            asked: "lower",
            library: format!("label {label} is marked {}", library[label]),
            expected: format!("label {label} is marked {}", published[label]),
        }),
    }
}
