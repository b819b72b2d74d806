//! Room that just suffices, and a byte or a word less; the viewer; the crate's own buffers.

use delzhomo::{Assembler, Refusal, check, listing_length, lower_into, view};

use crate::compare::Library;
use crate::difference::{Compared, holds, refusal, same};
use crate::listing::{TOO_SHORT, same_but_for_nodes};
use crate::published::Made;

const TABLE_TOO_SHORT: Refusal = refused(21, 0);

const fn refused(number: usize, place: usize) -> Refusal {
    Refusal {
        number,
        place,
        extra: 0,
    }
}

impl Library {
    /// Of a unit that lowers.
    pub fn compare_rooms(&mut self, unit: &[u8], made: &Made) -> Compared<()> {
        self.lower(unit, made, 0, 0)?;
        let (length, labels) = (made.listing.len(), made.marks.len());
        self.short_lower(unit, length - 1, labels, TOO_SHORT)?;
        if let Some(fewer) = labels.checked_sub(1) {
            self.short_lower(unit, length, fewer, TABLE_TOO_SHORT)?;
            self.short_lower(unit, length - 1, fewer, TOO_SHORT)?;
        }
        self.compare_code(made, length)?;
        self.compare_code(made, length - 1)?;
        compare_views(made)?;
        compare_assembler(&mut Assembler::new(), unit, made)?;
        compare_assembler(&mut self.assembler, unit, made)
    }

    fn short_lower(
        &mut self,
        unit: &[u8],
        bytes: usize,
        words: usize,
        expected: Refusal,
    ) -> Compared<()> {
        let (listing, marks) = (self.listing.lend(bytes), self.marks.lend(words));
        let found = lower_into(unit, listing, marks);
        same("lower with too little room", found, Err(expected))?;
        self.kept_lowered("lower with too little room", 0, 0)
    }
}

/// The whole listing, its last record and the one after it.
fn compare_views(made: &Made) -> Compared<()> {
    let count = made.totals.records;
    same("check", check(&made.listing), Ok(count))?;
    let past = view(&made.listing, count).map(<[u8]>::len);
    same("view past the end", past, Err(refused(22, count)))?;
    let Some(last) = count.checked_sub(1) else {
        return Ok(());
    };
    let found = view(&made.listing, last);
    let expected = &made.listing[listing_length(last)..];
    holds("view", found == Ok(expected), "the last record is seen")
}

/// What the crate gives from its own buffers.
fn compare_assembler(assembler: &mut Assembler, unit: &[u8], made: &Made) -> Compared<()> {
    let is_same = assembler.lower(unit).is_ok_and(|lowered| {
        same_but_for_nodes(lowered.bytes(), &made.listing)
            && lowered.labels() == made.marks
            && lowered.size() as usize == made.totals.size
    });
    holds("Assembler::lower", is_same, "it gives the same")?;
    let is_same = match (assembler.assemble(unit), &made.code) {
        (Ok(code), Ok(expected)) => same_but_for_nodes(code.bytes(), &expected.resolved),
        (Err(found), Err(expected)) => found == refusal(*expected),
        _ => false,
    };
    holds("Assembler::assemble", is_same, "it gives the same")
}
