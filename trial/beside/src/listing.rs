//! The bytes of listings, and what is said of those that are written.

use delzhomo::Refusal;

use crate::difference::{Compared, Difference, holds, same};
use crate::lent::Lent;

pub const VERSION: u8 = 1;
pub const FRONT: usize = 5;
pub const RECORD: usize = 22;

/// Where a record's last field begins, the node that emitted it. The published assembler has no such field: of a lowered listing it is
/// left out.
pub const NODE: usize = 18;

/// Of a buffer that is too short for what is to be written.
pub const TOO_SHORT: Refusal = Refusal {
    number: 20,
    place: 0,
    extra: 0,
};

pub const KEPT: &str = "bytes past the listing, after a refusal all, stay as they were";

/// Writes the front of a listing; all that follows it are its records.
pub fn put_front(listing: &mut [u8]) {
    let length = (listing.len() - FRONT) as u32;
    listing[0] = VERSION;
    listing[1..FRONT].copy_from_slice(&length.to_be_bytes());
}

/// What is written into so many bytes of another listing: the expected one, with nothing behind it, or nothing. Of all refusals that of
/// the room comes last.
pub fn written(
    asked: &'static str,
    out: &mut Lent<u8>,
    room: usize,
    expected: Result<&[u8], Refusal>,
    write: impl FnOnce(&mut [u8]) -> Result<usize, Refusal>,
) -> Compared<()> {
    let expected = match expected {
        Ok(listing) if room < listing.len() => Err(TOO_SHORT),
        expected => expected,
    };
    let found = write(out.lend(room));
    let count = expected.map(|listing| (listing.len() - FRONT) / RECORD);
    same(asked, found, count)?;
    let length = expected.map_or(0, <[u8]>::len);
    if let Ok(listing) = expected {
        same_listing(asked, out.first(length), listing, RECORD)?;
    }
    holds(asked, out.is_kept_from(length), KEPT)
}

/// The bytes of two listings of the same length, of each record so many; of a difference the first record is told.
pub fn same_listing(
    asked: &'static str,
    library: &[u8],
    published: &[u8],
    compared: usize,
) -> Compared<()> {
    let Some(record) = first_difference(library, published, compared) else {
        return Ok(());
    };
    Err(Difference {
        asked,
        library: record_text(library, record),
        expected: record_text(published, record),
    })
}

/// Whether two listings are the same but for the nodes of their records.
pub fn same_but_for_nodes(library: &[u8], published: &[u8]) -> bool {
    library.len() == published.len() && first_difference(library, published, NODE).is_none()
}

/// The first record that differs in its first so many bytes, or the front.
fn first_difference(library: &[u8], published: &[u8], compared: usize) -> Option<Option<usize>> {
    let (front, records) = library.split_at(FRONT);
    let (other_front, others) = published.split_at(FRONT);
    if front != other_front {
        return Some(None);
    }
    let mut pairs = records
        .chunks_exact(RECORD)
        .zip(others.chunks_exact(RECORD));
    let differs = |(a, b): (&[u8], &[u8])| a[..compared] != b[..compared];
    pairs.position(differs).map(Some)
}

/// Of a listing, or of no bytes at all.
pub fn records(listing: &[u8]) -> impl Iterator<Item = &[u8]> {
    let records = listing.get(FRONT..).unwrap_or_default();
    records.chunks_exact(RECORD)
}

/// A record's fields in hexadecimal, or the front.
pub fn record_text(listing: &[u8], record: Option<usize>) -> String {
    let Some(number) = record else {
        return format!("front {:02X?}", &listing[..FRONT]);
    };
    let bytes = &listing[FRONT + RECORD * number..][..RECORD];
    let field = |from: usize, to: usize| -> String {
        let digits = bytes[from..to].iter().map(|byte| format!("{byte:02X}"));
        digits.collect()
    };
    let fields = [
        (0, 1),
        (1, 2),
        (2, 4),
        (4, 6),
        (6, 8),
        (8, 10),
        (10, 18),
        (18, 22),
    ];
    let fields = fields.map(|(from, to)| field(from, to));
    format!("record {number} is {}", fields.join(" "))
}
