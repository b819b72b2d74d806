//! Every number in each field that is moved, given to the library and to the published code.

use std::collections::BTreeMap;
use std::fmt;

use delzhomo::tag::Tag;
use oracle::offsets::{restored, stored};
use oracle::record::Record;

use super::model::{CARRIERS, Carrier, Field, Way, leaves};
use crate::difference::Compared;
use crate::drawn::joined;
use crate::lent::Lent;
use crate::listing::{FRONT, written};
use crate::published;
use crate::run::Trial;

/// A listing of one record for each number in this field of each tag, and 0 in the other.
pub fn listings(field: Field) -> impl Iterator<Item = Vec<u8>> {
    carriers(field).flat_map(move |carrier| {
        (i16::MIN..=i16::MAX).map(move |number| {
            let mut listing = listing(Record {
                tag: carrier.tag.number(),
                ..Record::default()
            });
            field.put(&mut listing[FRONT..], number);
            listing
        })
    })
}

fn carriers(field: Field) -> impl Iterator<Item = &'static Carrier> {
    CARRIERS
        .iter()
        .filter(move |carrier| carrier.field == field)
}

fn listing(record: Record) -> Vec<u8> {
    published::listing(1, [record].into_iter())
}

/// What the published code does with a number.
#[derive(Clone, Copy, PartialEq, Eq, PartialOrd, Ord)]
enum Ends {
    Gives,
    Panics,
    /// As it does where overflow is not checked.
    Wraps,
}

pub struct Edges {
    field: Field,
    out: Lent<u8>,
}

impl Edges {
    pub fn new(field: Field) -> Self {
        Self {
            field,
            out: Lent::filled_with(0x5A),
        }
    }

    /// One way. Where the published number overflows it is to be refused.
    fn compare(&mut self, listed: &[u8], way: Way) -> Compared<Ends> {
        let (ends, published) = self.published(&listed[FRONT..], way);
        let expected = match ends {
            Ends::Gives => Ok(&published[..]),
            Ends::Panics | Ends::Wraps => Err(leaves(0, self.field)),
        };
        let write = |out: &mut [u8]| way.write(listed, out);
        written(way.name(), &mut self.out, listed.len(), expected, write)?;
        Ok(ends)
    }

    /// What the published code does with a record, and the listing of what it gives.
    fn published(&self, record: &[u8], way: Way) -> (Ends, Vec<u8>) {
        let name = tag(record).name();
        let (first, second) = (Field::First.of(record), Field::Second.of(record));
        let made = match way {
            Way::Store => stored(name, first, second),
            Way::Restore => restored(name, first, second),
        };
        let Some(made) = made.map(listing) else {
            return (Ends::Panics, vec![]);
        };
        let (from, to) = (self.field.of(record), self.field.of(&made[FRONT..]));
        let wraps = match way {
            Way::Store => to > from,
            Way::Restore => to < from,
        };
        let ends = if wraps { Ends::Wraps } else { Ends::Gives };
        (ends, made)
    }
}

impl Trial for Edges {
    type Tally = Tally;

    fn try_unit(&mut self, listed: &[u8], _: bool, tally: &mut Tally) -> Compared<()> {
        tally.listings += 1;
        let record = &listed[FRONT..];
        for way in Way::BOTH {
            let ends = self.compare(listed, way)?;
            tally.add((tag(record), way), ends, self.field.of(record));
        }
        Ok(())
    }
}

fn tag(record: &[u8]) -> Tag {
    Tag::new(record[0]).expect("a tag that carries labels")
}

/// On which numbers the two sides agree, by tag, way and end.
#[derive(Default)]
pub struct Tally {
    listings: usize,
    ends: BTreeMap<(Tag, Way), BTreeMap<Ends, Numbers>>,
}

/// How many, the lowest and the highest.
struct Numbers {
    count: usize,
    lowest: i16,
    highest: i16,
}

impl Tally {
    fn add(&mut self, tried: (Tag, Way), ends: Ends, number: i16) {
        let numbers = self.ends.entry(tried).or_default().entry(ends);
        let numbers = numbers.or_insert(Numbers {
            count: 0,
            lowest: number,
            highest: number,
        });
        numbers.count += 1;
        numbers.lowest = numbers.lowest.min(number);
        numbers.highest = numbers.highest.max(number);
    }
}

impl fmt::Display for Tally {
    fn fmt(&self, f: &mut fmt::Formatter<'_>) -> fmt::Result {
        writeln!(f, "{} listings", self.listings)?;
        for ((tag, way), ends) in &self.ends {
            let ends = ends.iter();
            let ends = ends.map(|(ends, numbers)| format!("{ends}: {numbers}"));
            writeln!(f, "  {tag}, {}: {}", way.name(), joined(ends))?;
        }
        Ok(())
    }
}

impl fmt::Display for Ends {
    fn fmt(&self, f: &mut fmt::Formatter<'_>) -> fmt::Result {
        match self {
            Self::Gives => write!(f, "the same"),
            Self::Panics => write!(f, "refused 33, published panic"),
            Self::Wraps => write!(f, "refused 33, published wrap"),
        }
    }
}

impl fmt::Display for Numbers {
    fn fmt(&self, f: &mut fmt::Formatter<'_>) -> fmt::Result {
        let Self {
            count,
            lowest,
            highest,
        } = self;
        write!(f, "{count}, {lowest} to {highest}")
    }
}
