//! Refusals: a number, a place and an extra number, and what they mean in words.

use std::error::Error;
use std::fmt;

/// Why a unit or a listing is refused. `Display` says it in a sentence, [`Refusal::line`] in document 01's form.
#[derive(Debug, Clone, Copy, PartialEq, Eq, Hash)]
pub struct Refusal {
    /// Which check refused: 1 to 5 reading a unit, 10 to 15 the walk, 20 and 21 buffers, 22 the viewer, 30 to 33 listings.
    pub number: usize,
    /// Where: see [`Refusal::place`].
    pub place: usize,
    /// One more number, 0 if the refusal has none.
    pub extra: usize,
}

/// What the place of a refusal counts.
#[derive(Debug, Clone, Copy, PartialEq, Eq, Hash)]
pub enum Place {
    /// A byte of the unit, where the node, block or run begins.
    Unit(usize),
    /// A record of the listing, by its number.
    Record(usize),
    /// The whole unit, listing or buffer.
    Whole,
}

impl Refusal {
    /// The place with what it counts.
    pub fn place(&self) -> Place {
        match self.number {
            2..=5 | 10..=15 => Place::Unit(self.place),
            22 | 31..=33 => Place::Record(self.place),
            _ => Place::Whole,
        }
    }

    /// Document 01's form: `refused` and the three numbers, without a newline.
    pub fn line(&self) -> String {
        format!("refused {} {} {}", self.number, self.place, self.extra)
    }

    /// Whether all that is wrong is a buffer that is too short: the unit itself is lowered.
    pub fn is_short_of_room(&self) -> bool {
        matches!(self.number, 20 | 21)
    }

    /// Which label field of a record 31 to 33 are about.
    fn label_field(&self) -> &'static str {
        if self.extra == 0 { "first" } else { "second" }
    }
}

impl fmt::Display for Refusal {
    fn fmt(&self, f: &mut fmt::Formatter<'_>) -> fmt::Result {
        let &Self {
            number,
            place,
            extra,
        } = self;
        match number {
            1 => write!(
                f,
                "this is not a unit: its version, length or return byte is wrong, or it has under 6 or over 1,048,576 bytes"
            ),
            2 => write!(
                f,
                "the node at byte {place} has a kind, or a value in one of its fields, that does not exist"
            ),
            3 => write!(
                f,
                "what begins at byte {place} does not fit: a part of it is missing, it runs past what holds it, or bytes are left at its end"
            ),
            4 => write!(
                f,
                "the node at byte {place} is nested too deep: at most 200 nodes may stand one in another"
            ),
            5 => write!(
                f,
                "the call at byte {place} has more arguments than the function has parameters"
            ),
            10 => write!(
                f,
                "the break at byte {place} stands in no loop and in no switch"
            ),
            11 => write!(f, "the continue at byte {place} stands in no loop"),
            12 => write!(
                f,
                "the struct constructed at byte {place} is given {extra} values; at most 255 can be given"
            ),
            13 => write!(
                f,
                "argument {extra} of a call, at byte {place}, is a reference to a temporary value; only the first 16 arguments can be that"
            ),
            14 => write!(
                f,
                "the built-in function called at byte {place} has the wrong number of type arguments, or a parameter that is short-circuit"
            ),
            15 => write!(
                f,
                "the script has too many jumps: at byte {place} it needs a 65,537th label, and there are 65,536"
            ),
            20 => write!(f, "the buffer for the listing is too short"),
            21 => write!(f, "the buffer for the label table is too short"),
            22 => write!(f, "the listing has no record {place}"),
            30 => write!(
                f,
                "this is not a listing: its version or length is wrong, a record is cut, has an unknown tag or an unused field that is not 0, or there are over 1,048,576 records"
            ),
            31 => write!(
                f,
                "the {} label of record {place} is not in the label table, or is marked nowhere",
                self.label_field()
            ),
            32 => write!(
                f,
                "the {} jump of record {place} lands too far away, beyond 16 bits: shorten what lies between",
                self.label_field()
            ),
            33 => write!(
                f,
                "the {} jump of record {place} leaves 16 bits when it is stored or restored; no listing that was made of a unit has such a jump",
                self.label_field()
            ),
            _ => write!(
                f,
                "refused with number {number}, which has no sentence here (place {place}, extra {extra})"
            ),
        }
    }
}

impl Error for Refusal {}
