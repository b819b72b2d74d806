//! What the published assembler makes of a unit, in document 01's bytes.

use delzhomo::{Totals, listing_length};
use oracle::answer::{self, Stop};
use oracle::limits::Limits;
use oracle::reader::{self, ExtraArguments, Refusal};
use oracle::record::Record;

use crate::listing::{FRONT, put_front};

const TOO_DISTANT: u32 = 32;

/// The two listings of resolved code.
pub struct Code {
    /// With distances.
    pub resolved: Vec<u8>,
    /// With the fields that are stored of them.
    pub stored: Vec<u8>,
}

/// All that is made of a unit that lowers.
pub struct Made {
    pub totals: Totals,
    /// The labelled listing.
    pub listing: Vec<u8>,
    /// The label table.
    pub marks: Vec<u32>,
    /// None if some distance is too long.
    pub code: Result<Code, Refusal>,
    /// How many distances there are, too long or not.
    pub distances: usize,
    /// The tags that occur, a bit for each.
    pub tags: u128,
}

/// Refusals are those of the public way in, which resolves too: what lowers has its labels and
/// marks from a second walk.
pub fn assemble(unit: &[u8]) -> Result<Made, Stop> {
    let read = reader::read(unit, ExtraArguments::Refuse, None);
    let mut program = read.map_err(Stop::Refused)?;
    let code = match answer::stage(&mut program, Limits::REAL) {
        Ok(code) => Ok(Code {
            resolved: listing(code.len(), code.iter().map(Record::resolved)),
            stored: listing(code.len(), code.iter().map(Record::stored)),
        }),
        Err(Stop::Refused(refusal)) if refusal.number == TOO_DISTANT => Err(refusal),
        Err(stop) => return Err(stop),
    };
    let labelled = answer::labelled(&mut program)?;
    let (mut distances, mut tags) = (0, 0);
    let records = labelled.code.iter().map(|(parts, _)| {
        let record = Record::labelled(parts);
        distances += record.locations;
        tags |= 1 << record.tag;
        record
    });
    let listing = listing(labelled.code.len(), records);
    Ok(Made {
        totals: Totals {
            records: labelled.code.len(),
            labels: labelled.marks.len(),
            size: labelled.size as usize,
        },
        listing,
        marks: labelled.marks,
        code,
        distances,
        tags,
    })
}

pub fn listing(count: usize, records: impl Iterator<Item = Record>) -> Vec<u8> {
    let mut listing = Vec::with_capacity(listing_length(count));
    listing.resize(FRONT, 0);
    for (number, record) in records.enumerate() {
        push(&mut listing, &record);
        listing.extend(node(number).to_be_bytes());
    }
    put_front(&mut listing);
    listing
}

/// The published assembler says nothing of the node that emitted a record. Each record is given another number, so that it shows if
/// resolving, storing or restoring does not hand it on.
fn node(number: usize) -> u32 {
    (number as u32).wrapping_mul(0x9E37_79B9)
}

/// A field that has more bits than its place would be a fault of the oracle's.
fn push(listing: &mut Vec<u8>, record: &Record) {
    let narrow = |field: u64| u16::try_from(field).expect("a field of 16 bits");
    listing.push(record.tag);
    listing.push(u8::try_from(record.small).expect("a field of 8 bits"));
    listing.extend(location(record.first).to_be_bytes());
    listing.extend(location(record.second).to_be_bytes());
    listing.extend(narrow(record.line).to_be_bytes());
    listing.extend(narrow(record.flags).to_be_bytes());
    listing.extend(record.value.to_be_bytes());
}

/// The bits of a label number, or of a distance, stored or not.
fn location(value: i64) -> u16 {
    let distance = || i16::try_from(value).map(i16::cast_unsigned);
    let bits = u16::try_from(value).or_else(|_| distance());
    bits.expect("a label or a distance of 16 bits")
}
