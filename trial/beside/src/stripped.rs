//! A unit and the same unit stripped, both given to the library.

mod tally;

use std::ops::Range;

use delzhomo::tag::Tag;
use delzhomo::{Refusal, Totals, listing_length, lower_into, measure, resolve_into, strip_into};

use crate::compare::{Answer, SPARE_BYTES, SPARE_WORDS, same_marks};
use crate::difference::{Compared, Difference, holds, same};
use crate::lent::Lent;
use crate::listing::{NODE, TOO_SHORT, record_text, records};
use crate::run::Trial;
use tally::Tally;

/// The fields of a record: its labels or distances, its line, its value.
const LABELS: Range<usize> = 2..6;
const LINE: Range<usize> = 6..8;
const VALUE: Range<usize> = 10..18;

/// What was compared of a unit, and what stripping changed in it.
pub struct Outcome {
    answer: Answer,
    /// Records and label marks of the labelled listing.
    labelled: usize,
    marks: usize,
    /// Records of the resolved one.
    resolved: usize,
    /// Bytes.
    changed: usize,
    /// Whether it was also lent just enough, and too little.
    rooms: bool,
}

/// How long the lent buffers are.
#[derive(Clone, Copy)]
struct Room {
    listing: usize,
    marks: usize,
    code: usize,
}

/// The two, each with buffers of its own.
pub struct Pair {
    stripped: Lent<u8>,
    /// Stripped once more.
    again: Lent<u8>,
    of_unit: Side,
    of_stripped: Side,
}

impl Pair {
    pub fn new() -> Self {
        Self {
            stripped: Lent::filled_with(0xA5),
            again: Lent::filled_with(0x5A),
            of_unit: Side::new(),
            of_stripped: Side::new(),
        }
    }

    fn compare(&mut self, unit: &[u8], rooms: bool) -> Compared<Outcome> {
        self.strip(unit)?;
        let stripped = self.stripped.first(unit.len());
        let measured = measure(unit);
        same("measure", measure(stripped), measured)?;
        let rooms = rooms && measured.is_ok();
        for room in small_rooms(measured).filter(|_| rooms) {
            self.compare_in(room, unit)?;
        }
        self.compare_in(ample_room(unit, measured), unit)?;
        blank_records(self.of_stripped.listing())?;
        self.strip_again(unit.len())?;
        Ok(self.outcome(unit, rooms))
    }

    /// Into a buffer that is too short, then into one with something behind the unit.
    fn strip(&mut self, unit: &[u8]) -> Compared<()> {
        if let Some(less) = unit.len().checked_sub(1) {
            let refused = strip_into(unit, self.stripped.lend(less)) == Err(TOO_SHORT);
            let is_so = refused && self.stripped.is_kept_from(0);
            holds(
                "strip",
                is_so,
                "a byte less is refused, and stays as it was",
            )?;
        }
        let written = strip_into(unit, self.stripped.lend(unit.len() + SPARE_BYTES));
        let is_so = written == Ok(unit.len()) && self.stripped.is_kept_from(unit.len());
        holds("strip", is_so, "as many bytes as the unit has are written")
    }

    /// Into a buffer that just suffices.
    fn strip_again(&mut self, length: usize) -> Compared<()> {
        let stripped = self.stripped.first(length);
        let written = strip_into(stripped, self.again.lend(length));
        let is_so = written == Ok(length) && self.again.first(length) == stripped;
        holds(
            "strip, twice",
            is_so && self.again.is_kept_from(length),
            "stripping twice is stripping once",
        )
    }

    /// Lowers and resolves both with as much room.
    fn compare_in(&mut self, room: Room, unit: &[u8]) -> Compared<()> {
        self.of_unit.run(unit, room);
        let stripped = self.stripped.first(unit.len());
        self.of_stripped.run(stripped, room);
        let (found, expected) = (&self.of_stripped, &self.of_unit);
        same("lower", found.lowered, expected.lowered)?;
        same_marks(found.marks(), expected.marks())?;
        same_records("lower", found.listing(), expected.listing())?;
        same("resolve", found.resolved, expected.resolved)?;
        same_records("resolve", found.code(), expected.code())
    }

    fn outcome(&self, unit: &[u8], rooms: bool) -> Outcome {
        let side = &self.of_unit;
        let stripped = self.stripped.first(unit.len());
        let answer = match side.resolved {
            Ok(_) => Answer::Code,
            Err(refusal) => Answer::Refused(refusal.number as u32),
        };
        Outcome {
            answer,
            labelled: side.lowered.map_or(0, |totals| totals.records),
            marks: side.marks().len(),
            resolved: side.resolved.unwrap_or(0),
            changed: unit.iter().zip(stripped).filter(|(a, b)| a != b).count(),
            rooms,
        }
    }
}

impl Trial for Pair {
    type Tally = Tally;

    fn try_unit(&mut self, unit: &[u8], rooms: bool, tally: &mut Tally) -> Compared<()> {
        tally.add_unit(unit);
        let outcome = self.compare(unit, rooms)?;
        tally.add_outcome(&outcome);
        Ok(())
    }
}

/// More than the unit takes; of one that does not lower, more than most of its length take.
fn ample_room(unit: &[u8], measured: Result<Totals, Refusal>) -> Room {
    let (bytes, words) = match measured {
        Ok(totals) => (listing_length(totals.records), totals.labels),
        Err(_) => (4 * unit.len(), unit.len() / 8),
    };
    Room {
        listing: bytes + SPARE_BYTES,
        marks: words + SPARE_WORDS,
        code: bytes + SPARE_BYTES,
    }
}

/// Of a unit that lowers: room that just suffices, and one less in each buffer.
fn small_rooms(measured: Result<Totals, Refusal>) -> impl Iterator<Item = Room> {
    let rooms = measured.map(|totals| {
        let length = listing_length(totals.records);
        let room = |bytes, words, code| Room {
            listing: length - bytes,
            marks: totals.labels.saturating_sub(words),
            code: length - code,
        };
        [room(0, 0, 0), room(1, 0, 0), room(0, 1, 0), room(0, 0, 1)]
    });
    rooms.into_iter().flatten()
}

/// What the library says of one of the two, and the buffers that it is lent.
struct Side {
    listing: Lent<u8>,
    marks: Lent<u32>,
    code: Lent<u8>,
    lowered: Result<Totals, Refusal>,
    /// What does not lower is not resolved: then it is the same refusal.
    resolved: Result<usize, Refusal>,
}

impl Side {
    fn new() -> Self {
        Self {
            listing: Lent::filled_with(0xA5),
            marks: Lent::filled_with(0xA5C3_960F),
            code: Lent::filled_with(0x5A),
            lowered: Err(TOO_SHORT),
            resolved: Err(TOO_SHORT),
        }
    }

    /// Lowers a unit, and resolves what comes out.
    fn run(&mut self, unit: &[u8], room: Room) {
        let (listing, marks) = (self.listing.lend(room.listing), self.marks.lend(room.marks));
        self.lowered = lower_into(unit, listing, marks);
        let code = self.code.lend(room.code);
        self.resolved = self.lowered.and_then(|totals| {
            let listing = self.listing.first(listing_length(totals.records));
            resolve_into(listing, self.marks.first(totals.labels), code)
        });
    }

    fn marks(&self) -> &[u32] {
        let labels = self.lowered.map_or(0, |totals| totals.labels);
        self.marks.first(labels)
    }

    fn listing(&self) -> &[u8] {
        let records = self.lowered.map(|totals| totals.records);
        made(&self.listing, records)
    }

    fn code(&self) -> &[u8] {
        made(&self.code, self.resolved)
    }
}

/// The listing in a buffer, or nothing.
fn made(buffer: &Lent<u8>, records: Result<usize, Refusal>) -> &[u8] {
    buffer.first(records.map_or(0, listing_length))
}

/// Starts, sizes, labels or distances, and nodes of two listings with as many records.
fn same_records(asked: &'static str, stripped: &[u8], unit: &[u8]) -> Compared<()> {
    let mut pairs = shapes(stripped).zip(shapes(unit));
    match pairs.position(|(a, b)| a != b) {
        None => Ok(()),
        Some(record) => Err(Difference {
            asked,
            library: record_text(stripped, Some(record)),
            expected: record_text(unit, Some(record)),
        }),
    }
}

/// No index, line or constant is left: a line is 0, and a value too, but for 2 in an I32Const. A U64Const also counts arrays.
fn blank_records(listing: &[u8]) -> Compared<()> {
    let is_blank = |record: &[u8]| {
        let most = match Tag::new(record[0]) {
            Some(Tag::I32Const) => 2,
            Some(Tag::U64Const) => u64::MAX,
            _ => 0,
        };
        let value = record[VALUE]
            .iter()
            .fold(0, |value, &byte| value << 8 | u64::from(byte));
        record[LINE] == [0, 0] && value <= most
    };
    match records(listing).position(|record| !is_blank(record)) {
        None => Ok(()),
        Some(record) => Err(Difference {
            asked: "lower, stripped",
            library: record_text(listing, Some(record)),
            expected: "a record without a line and an index".to_string(),
        }),
    }
}

/// Start, size, labels or distances, and node of each record.
fn shapes(listing: &[u8]) -> impl Iterator<Item = (u32, u32, &[u8], &[u8])> {
    let mut start = 0;
    records(listing).map(move |record| {
        let size = Tag::new(record[0]).map_or(0, Tag::size);
        let begun = start;
        start += size;
        (begun, size, &record[LABELS], &record[NODE..])
    })
}
