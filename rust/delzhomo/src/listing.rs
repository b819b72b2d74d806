//! Listings: records as typed instructions, with distances or with labels.

use std::fmt;
use std::marker::PhantomData;
use std::slice;

use crate::draw::Drawing;
use crate::tag::Tag;
use crate::{Refusal, ffi};

/// Bytes of a listing before its first record: the version and the length.
const FRONT: usize = 5;

/// Bytes of a record.
const RECORD: usize = 22;

/// How many records a listing may have.
const MAX_RECORDS: usize = 1_048_576;

/// The mark of a label that is marked nowhere.
const UNMARKED: u32 = u32::MAX;

/// How many bytes a listing of so many records has.
pub fn listing_length(records: usize) -> usize {
    FRONT + RECORD * records
}

/// The number of a label, in a listing that is not resolved yet.
#[derive(Debug, Clone, Copy, PartialEq, Eq, PartialOrd, Ord, Hash)]
pub struct Label(pub u16);

/// What a label field of a record holds: a distance (`i16`) in a resolved listing, a [`Label`] before, a
/// [`StoredField`](crate::StoredField) in a stored one.
pub trait Loc: Copy + sealed::FromBits {}

impl Loc for i16 {}
impl Loc for Label {}

pub(crate) mod sealed {
    use super::Label;

    /// From the field's bits; and the number that is printed.
    pub trait FromBits {
        fn from_bits(bits: u16) -> Self;
        fn number(self) -> i32;
    }

    impl FromBits for i16 {
        fn from_bits(bits: u16) -> Self {
            bits.cast_signed()
        }

        fn number(self) -> i32 {
            self.into()
        }
    }

    impl FromBits for Label {
        fn from_bits(bits: u16) -> Self {
            Self(bits)
        }

        fn number(self) -> i32 {
            self.0.into()
        }
    }
}

/// One instruction. A field that its tag does not use is 0, or `None` for a label.
#[derive(Debug, Clone, Copy, PartialEq, Eq)]
pub struct Instruction<L = i16> {
    /// Its number in the listing, from 0 on.
    pub index: usize,
    /// Its virtual offset: the sizes of all instructions before it.
    pub start: u32,
    /// What it does.
    pub tag: Tag,
    /// `arg_count`, `size` or `is_weak`.
    pub small: u8,
    /// The only label, or `false_label`, `first_case`, `next_case`.
    pub first: Option<L>,
    /// `exit` of a Conditional, `body` of a SwitchLabel.
    pub second: Option<L>,
    /// The line of a call.
    pub line: u16,
    /// The arguments of a call that are references to temporary values, a bit each.
    pub flags: u16,
    /// An index, or the bits of a constant.
    pub value: u64,
    /// The unit offset of the node that emitted it: the one whose own rule makes the instruction, never a child or a holder.
    pub node: u32,
}

impl<L: Loc> Instruction<L> {
    /// The virtual offset after it.
    pub fn end(&self) -> u32 {
        self.start + self.tag.size()
    }

    fn read(record: &[u8; RECORD], index: usize, start: u32) -> Option<Self> {
        let &[
            number,
            small,
            f0,
            f1,
            s0,
            s1,
            l0,
            l1,
            g0,
            g1,
            ref value @ ..,
            n0,
            n1,
            n2,
            n3,
        ] = record;
        let tag = Tag::new(number)?;
        let uses = tag.fields();
        let label = |used: Option<_>, bits| used.map(|_| L::from_bits(u16::from_be_bytes(bits)));
        Some(Self {
            index,
            start,
            tag,
            small,
            first: label(uses.first, [f0, f1]),
            second: label(uses.second, [s0, s1]),
            line: u16::from_be_bytes([l0, l1]),
            flags: u16::from_be_bytes([g0, g1]),
            value: u64::from_be_bytes(*value),
            node: u32::from_be_bytes([n0, n1, n2, n3]),
        })
    }
}

impl Instruction {
    /// How far from its start its first jump lands.
    pub fn distance(&self) -> Option<i16> {
        self.first
    }

    /// How far from its start its second jump lands.
    pub fn second_distance(&self) -> Option<i16> {
        self.second
    }

    /// The virtual offset where its first jump lands.
    pub fn target(&self) -> Option<i64> {
        self.landing(self.first)
    }

    /// The virtual offset where its second jump lands.
    pub fn second_target(&self) -> Option<i64> {
        self.landing(self.second)
    }

    /// The virtual offsets where its jumps land: none, one or two.
    pub fn targets(&self) -> impl Iterator<Item = i64> + use<> {
        self.target().into_iter().chain(self.second_target())
    }

    fn landing(&self, distance: Option<i16>) -> Option<i64> {
        distance.map(|distance| i64::from(self.start) + i64::from(distance))
    }
}

/// Document 01's line of an instruction, without a newline.
impl<L: Loc> fmt::Display for Instruction<L> {
    fn fmt(&self, f: &mut fmt::Formatter<'_>) -> fmt::Result {
        let number = |label: Option<L>| label.map_or(0, sealed::FromBits::number);
        write!(
            f,
            "{} {:02X} {} {} {} {} {} {:016X}",
            self.start,
            self.tag.number(),
            self.small,
            number(self.first),
            number(self.second),
            self.line,
            self.flags,
            self.value
        )
    }
}

/// The instructions of a listing, in order.
#[derive(Debug, Clone)]
pub struct Instructions<'a, L = i16> {
    records: slice::Iter<'a, [u8; RECORD]>,
    index: usize,
    start: u32,
    labels: PhantomData<L>,
}

impl<L: Loc> Iterator for Instructions<'_, L> {
    type Item = Instruction<L>;

    fn next(&mut self) -> Option<Self::Item> {
        let instruction = Instruction::read(self.records.next()?, self.index, self.start)?;
        self.index += 1;
        self.start = instruction.end();
        Some(instruction)
    }

    fn size_hint(&self) -> (usize, Option<usize>) {
        self.records.size_hint()
    }
}

impl<L: Loc> ExactSizeIterator for Instructions<'_, L> {}

/// Records that all have a known tag.
#[derive(Debug, Clone, Copy)]
pub(crate) struct Records<'a> {
    bytes: &'a [u8],
    records: &'a [[u8; RECORD]],
}

impl<'a> Records<'a> {
    /// The records up to the first whose tag is unknown.
    fn new(bytes: &'a [u8]) -> Self {
        let all = Self::checked(bytes);
        let known = all
            .records
            .iter()
            .take(MAX_RECORDS)
            .take_while(|record| Tag::new(record[0]).is_some())
            .count();
        Self {
            bytes,
            records: &all.records[..known],
        }
    }

    /// All records of bytes that the library has found to be a listing, so that no tag need be looked at again.
    pub(crate) fn checked(bytes: &'a [u8]) -> Self {
        let (records, _part) = bytes.get(FRONT..).unwrap_or_default().as_chunks();
        Self { bytes, records }
    }

    pub(crate) fn len(&self) -> usize {
        self.records.len()
    }

    pub(crate) fn iter<L>(&self) -> Instructions<'a, L> {
        Instructions {
            records: self.records.iter(),
            index: 0,
            start: 0,
            labels: PhantomData,
        }
    }

    pub(crate) fn size(&self) -> u32 {
        self.iter::<i16>().last().map_or(0, |last| last.end())
    }

    pub(crate) fn print<L: Loc>(&self, word: &str, f: &mut fmt::Formatter<'_>) -> fmt::Result {
        writeln!(f, "{word} {} {}", self.len(), self.size())?;
        self.iter::<L>()
            .try_for_each(|instruction| writeln!(f, "{instruction}"))
    }
}

/// A listing whose jumps are distances. `Display` prints it in document 01's form.
#[derive(Debug, Clone, Copy)]
pub struct Listing<'a> {
    records: Records<'a>,
}

impl<'a> Listing<'a> {
    /// The listing in these bytes, which must be the whole of it; else refused with 30.
    pub fn from_bytes(bytes: &'a [u8]) -> Result<Self, Refusal> {
        ffi::check(bytes)?;
        Ok(Self::as_far_as_good(bytes))
    }

    /// What there is of a listing in any bytes: version and length are not looked at, and the instructions end before the first
    /// record that is cut or has an unknown tag. For tools that look at damaged listings.
    pub fn as_far_as_good(bytes: &'a [u8]) -> Self {
        Self {
            records: Records::new(bytes),
        }
    }

    /// The listing itself.
    pub fn bytes(&self) -> &'a [u8] {
        self.records.bytes
    }

    /// How many instructions it has.
    pub fn len(&self) -> usize {
        self.records.len()
    }

    /// Whether it has none.
    pub fn is_empty(&self) -> bool {
        self.len() == 0
    }

    /// The sum of the virtual sizes.
    pub fn size(&self) -> u32 {
        self.records.size()
    }

    /// Its instructions.
    pub fn iter(&self) -> Instructions<'a> {
        self.records.iter()
    }

    /// A picture of it, with an arrow from each jump to where it lands.
    pub fn draw(&self) -> Drawing<'a> {
        Drawing::new(*self)
    }
}

impl<'a> IntoIterator for &Listing<'a> {
    type Item = Instruction;
    type IntoIter = Instructions<'a>;

    fn into_iter(self) -> Self::IntoIter {
        self.iter()
    }
}

impl fmt::Display for Listing<'_> {
    fn fmt(&self, f: &mut fmt::Formatter<'_>) -> fmt::Result {
        self.records.print::<i16>("code", f)
    }
}

/// A listing whose jumps are labels, with its label table. `Display` prints the instructions with their labels' numbers, then
/// the marks.
#[derive(Debug, Clone, Copy)]
pub struct Labelled<'a> {
    records: Records<'a>,
    labels: &'a [u32],
}

impl<'a> Labelled<'a> {
    /// The caller has the bytes and the table from the library.
    pub(crate) fn new(bytes: &'a [u8], labels: &'a [u32]) -> Self {
        Self {
            records: Records::new(bytes),
            labels,
        }
    }

    /// The listing itself.
    pub fn bytes(&self) -> &'a [u8] {
        self.records.bytes
    }

    /// The label table: the mark of each label, 4,294,967,295 if it has none.
    pub fn labels(&self) -> &'a [u32] {
        self.labels
    }

    /// The virtual offset that a label marks, if it is in the table and marked.
    pub fn mark(&self, label: Label) -> Option<u32> {
        let mark = self.labels.get(usize::from(label.0)).copied();
        mark.filter(|&mark| mark != UNMARKED)
    }

    /// How many instructions it has.
    pub fn len(&self) -> usize {
        self.records.len()
    }

    /// Whether it has none.
    pub fn is_empty(&self) -> bool {
        self.len() == 0
    }

    /// The sum of the virtual sizes.
    pub fn size(&self) -> u32 {
        self.records.size()
    }

    /// Its instructions.
    pub fn iter(&self) -> Instructions<'a, Label> {
        self.records.iter()
    }
}

impl<'a> IntoIterator for &Labelled<'a> {
    type Item = Instruction<Label>;
    type IntoIter = Instructions<'a, Label>;

    fn into_iter(self) -> Self::IntoIter {
        self.iter()
    }
}

impl fmt::Display for Labelled<'_> {
    fn fmt(&self, f: &mut fmt::Formatter<'_>) -> fmt::Result {
        self.records.print::<Label>("labelled", f)?;
        writeln!(f, "labels {}", self.labels.len())?;
        self.labels
            .iter()
            .try_for_each(|mark| writeln!(f, "{mark}"))
    }
}
