//! Delzhomo: an assembler for script mods, proved. A script tree goes in, bytecode with jump distances comes out.
//!
//! The assembler itself is a static library whose every function is proved equal to its definition on every input. This crate puts
//! types around it: trees and their [encoding](Script::encode), [units](Unit), [listings](Listing) of typed instructions,
//! [refusals](Refusal) in words, and a [drawing](Listing::draw) with arrows.
//!
//! From a tree to printed code:
//!
//! ```
//! use delzhomo::{Assembler, Block, ConditionalBlock, Expr, Script, Stmt};
//!
//! // while (false) { break }
//! let body = ConditionalBlock::new(Expr::bool(false), [Stmt::Break]);
//! let script = Script { returns: false, block: Block::new([Stmt::While(body)]) };
//! let mut assembler = Assembler::new();
//! let listing = assembler.assemble(script.encode()?)?;
//! print!("{listing}");
//! # assert_eq!(listing.to_string(), "code 4 10\n\
//! #     0 20 0 10 0 0 0 0000000000000000\n3 14 0 0 0 0 0 0000000000000000\n\
//! #     4 1F 0 6 0 0 0 0000000000000000\n7 1F 0 -7 0 0 0 0000000000000000\n");
//! # Ok::<(), Box<dyn std::error::Error>>(())
//! ```
//!
//! Document 01 is the public paper that says what units and listings are and what is refused; its numbers are those of [`Refusal`].

#![deny(missing_docs)]
#![deny(unsafe_code)]
#![forbid(unsafe_op_in_unsafe_fn)]

mod draw;
mod encode;
#[allow(unsafe_code, reason = "the boundary to the static library")]
mod ffi;
mod kind;
mod listing;
mod path;
mod refusal;
mod stored;
pub mod tag;
pub mod tree;
mod unit;

pub use draw::Drawing;
pub use encode::{EncodeError, MAX_BYTES, MAX_DEPTH};
pub use kind::Kind;
pub use listing::{Instruction, Instructions, Label, Labelled, Listing, Loc, listing_length};
pub use path::{Nodes, Step, path_text};
pub use refusal::{Place, Refusal};
pub use stored::{Stored, StoredField};
pub use tag::Tag;
pub use tree::{Block, Case, ConditionalBlock, Expr, Script, Stmt};
pub use unit::{HexError, HexFault, Unit};

/// What a unit becomes: how much of everything there is.
#[derive(Debug, Clone, Copy, PartialEq, Eq, Hash)]
pub struct Totals {
    /// How many records its listing has; [`listing_length`] says how many bytes that is.
    pub records: usize,
    /// How many labels it makes, which is the length of its label table.
    pub labels: usize,
    /// The sum of the virtual sizes.
    pub size: usize,
}

/// An assembler that keeps its buffers, so that many scripts can be assembled without taking memory for each.
#[derive(Debug, Clone, Default)]
pub struct Assembler {
    labelled: Vec<u8>,
    labels: Vec<u32>,
    resolved: Vec<u8>,
}

impl Assembler {
    /// An assembler whose buffers are empty; they grow as needed.
    pub fn new() -> Self {
        Self::default()
    }

    /// The listing of a unit, with distances.
    pub fn assemble(&mut self, unit: impl AsRef<[u8]>) -> Result<Listing<'_>, Refusal> {
        let totals = self.fill(unit.as_ref())?;
        let length = listing_length(totals.records);
        let out = room(&mut self.resolved, length);
        ffi::resolve(&self.labelled[..length], &self.labels[..totals.labels], out)?;
        Ok(Listing::as_far_as_good(out))
    }

    /// The listing of a unit before its jumps are resolved, with its label table.
    pub fn lower(&mut self, unit: impl AsRef<[u8]>) -> Result<Labelled<'_>, Refusal> {
        let totals = self.fill(unit.as_ref())?;
        let length = listing_length(totals.records);
        Ok(Labelled::new(
            &self.labelled[..length],
            &self.labels[..totals.labels],
        ))
    }

    /// Lowers into the buffers as they are. Where they are too short the unit is measured, and they grow.
    fn fill(&mut self, unit: &[u8]) -> Result<Totals, Refusal> {
        let lowered = ffi::lower(unit, &mut self.labelled, &mut self.labels);
        if !matches!(lowered, Err(refusal) if refusal.is_short_of_room()) {
            return lowered;
        }
        let totals = ffi::measure(unit)?;
        let out = room(&mut self.labelled, listing_length(totals.records));
        ffi::lower(unit, out, room(&mut self.labels, totals.labels))
    }
}

/// The first so many entries of a buffer, which grows if it is shorter.
fn room<T: Clone + Default>(buffer: &mut Vec<T>, length: usize) -> &mut [T] {
    if buffer.len() < length {
        buffer.resize(length, T::default());
    }
    &mut buffer[..length]
}

/// How many records and labels a unit has, and its total size.
pub fn measure(unit: impl AsRef<[u8]>) -> Result<Totals, Refusal> {
    ffi::measure(unit.as_ref())
}

/// Lowers a unit into lent buffers: the labelled listing into `out`, its label table into `marks`. Bytes and words behind them stay
/// as they were, and so does everything if it is refused.
pub fn lower_into(
    unit: impl AsRef<[u8]>,
    out: &mut [u8],
    marks: &mut [u32],
) -> Result<Totals, Refusal> {
    ffi::lower(unit.as_ref(), out, marks)
}

/// Resolves a labelled listing into a lent buffer, and says how many records it has. Bytes behind the listing stay as they were, and
/// so does everything if it is refused.
pub fn resolve_into(listing: &[u8], marks: &[u32], out: &mut [u8]) -> Result<usize, Refusal> {
    ffi::resolve(listing, marks, out)
}

/// Whether bytes are a listing: how many records it has, or 30.
pub fn check(listing: &[u8]) -> Result<usize, Refusal> {
    ffi::check(listing)
}

/// A record of a listing, as part of the listing itself.
pub fn view(listing: &[u8], number: usize) -> Result<&[u8], Refusal> {
    let part = ffi::view(listing, number)?;
    Ok(listing.get(part).unwrap_or_default())
}

/// Strips a unit into a lent buffer, and says how many bytes were written, which is always the unit's length. Bytes behind them stay
/// as they were; a buffer that is shorter than the unit is refused with 20, and stays as it was. [`Unit::stripped`] says what is left
/// of a unit.
pub fn strip_into(unit: impl AsRef<[u8]>, out: &mut [u8]) -> Result<usize, Refusal> {
    ffi::strip(unit.as_ref(), out)
}

/// Stores a resolved listing as the loader does, into a lent buffer, and says how many records it has: each distance less a number
/// that goes by the instruction. A field that this takes out of 16 bits is refused with 33; no listing that was made of a unit has
/// one. Bytes behind the listing stay as they were, and so does everything if it is refused. [`Listing::stored`] has the numbers.
pub fn store_into(listing: &[u8], out: &mut [u8]) -> Result<usize, Refusal> {
    ffi::store(listing, out)
}

/// The way back from [`store_into`]: the resolved listing of a stored one. Each undoes the other on all that it takes.
pub fn restore_into(listing: &[u8], out: &mut [u8]) -> Result<usize, Refusal> {
    ffi::restore(listing, out)
}
