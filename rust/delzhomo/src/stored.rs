//! Listings as the game's loader stores them: not with distances, but with these less a number that goes by the instruction.

use std::fmt;

use crate::listing::sealed::FromBits;
use crate::listing::{Instruction, Instructions, Listing, Loc, Records};
use crate::{Refusal, ffi};

/// What the loader stores in a label field. It is not a distance: where a jump lands is said by the [restored](Stored::restored)
/// listing.
#[derive(Debug, Clone, Copy, PartialEq, Eq, PartialOrd, Ord, Hash)]
pub struct StoredField(pub i16);

impl Loc for StoredField {}

impl FromBits for StoredField {
    fn from_bits(bits: u16) -> Self {
        Self(i16::from_bits(bits))
    }

    fn number(self) -> i32 {
        self.0.number()
    }
}

/// A listing as the loader stores it. `Display` prints it in the form of document 01, with the word `stored` in place of `code` and the
/// numbers as they are stored.
#[derive(Debug, Clone, PartialEq, Eq, Hash)]
pub struct Stored {
    bytes: Vec<u8>,
}

impl Stored {
    /// The stored listing in these bytes, which must be the whole of it; else refused with 30.
    pub fn from_bytes(bytes: impl Into<Vec<u8>>) -> Result<Self, Refusal> {
        let bytes = bytes.into();
        ffi::check(&bytes)?;
        Ok(Self { bytes })
    }

    /// The stored listing itself.
    pub fn bytes(&self) -> &[u8] {
        &self.bytes
    }

    /// The stored listing itself, given away.
    pub fn into_bytes(self) -> Vec<u8> {
        self.bytes
    }

    /// How many instructions it has.
    pub fn len(&self) -> usize {
        self.records().len()
    }

    /// Whether it has none.
    pub fn is_empty(&self) -> bool {
        self.len() == 0
    }

    /// The sum of the virtual sizes, which storing leaves as they are.
    pub fn size(&self) -> u32 {
        self.records().size()
    }

    /// Its instructions.
    pub fn iter(&self) -> Instructions<'_, StoredField> {
        self.records().iter()
    }

    /// The bytes of the listing with distances, to be read with [`Listing::from_bytes`]: what [`Listing::stored`] takes off is put on
    /// again. Refused with 33 where a field leaves 16 bits by this, which none does that was stored.
    pub fn restored(&self) -> Result<Vec<u8>, Refusal> {
        moved(&self.bytes, ffi::restore)
    }

    fn records(&self) -> Records<'_> {
        Records::checked(&self.bytes)
    }
}

impl<'a> IntoIterator for &'a Stored {
    type Item = Instruction<StoredField>;
    type IntoIter = Instructions<'a, StoredField>;

    fn into_iter(self) -> Self::IntoIter {
        self.iter()
    }
}

impl fmt::Display for Stored {
    fn fmt(&self, f: &mut fmt::Formatter<'_>) -> fmt::Result {
        self.records().print::<StoredField>("stored", f)
    }
}

impl Listing<'_> {
    /// The listing as the game's loader stores it. All but the distances is copied; of these it stores
    ///
    /// | Instruction | first | second |
    /// |---|---|---|
    /// | Jump, JumpIfFalse, Skip, Context, InvokeStatic, InvokeVirtual | less 3 | |
    /// | Conditional, SwitchLabel | less 3 | less 5 |
    /// | Switch | less 11 | |
    ///
    /// A distance that leaves 16 bits by this is refused with 33, at the first such record and its first before its second; a damaged
    /// listing, which [`Listing::as_far_as_good`] takes, with 30. A listing that was made of a unit is never refused: only a Jump goes
    /// back in it, and never by more than 32,764.
    ///
    /// ```
    /// use delzhomo::{Assembler, Block, ConditionalBlock, Expr, Script, Stmt, StoredField};
    ///
    /// // while (false) { break }
    /// let body = ConditionalBlock::new(Expr::bool(false), [Stmt::Break]);
    /// let script = Script { returns: false, block: Block::new([Stmt::While(body)]) };
    /// let mut assembler = Assembler::new();
    /// let listing = assembler.assemble(script.encode()?)?;
    /// let stored = listing.stored()?;
    /// let distances: Vec<i16> = listing.iter().filter_map(|each| each.first).collect();
    /// let fields: Vec<StoredField> = stored.iter().filter_map(|each| each.first).collect();
    /// assert_eq!(distances, [10, 6, -7]);
    /// assert_eq!(fields, [7, 3, -10].map(StoredField));
    /// assert_eq!(stored.restored()?, listing.bytes());
    /// # Ok::<(), Box<dyn std::error::Error>>(())
    /// ```
    pub fn stored(&self) -> Result<Stored, Refusal> {
        let bytes = moved(self.bytes(), ffi::store)?;
        Ok(Stored { bytes })
    }
}

/// A listing with its fields moved one way or the other, in a buffer of its own length, which is never too short.
fn moved(
    listing: &[u8],
    way: fn(&[u8], &mut [u8]) -> Result<usize, Refusal>,
) -> Result<Vec<u8>, Refusal> {
    let mut out = vec![0; listing.len()];
    way(listing, &mut out)?;
    Ok(out)
}
