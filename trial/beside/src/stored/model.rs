//! What storing and restoring a listing give: a second reading of the definition, on whole numbers.

use std::fmt;
use std::ops::Range;

use delzhomo::tag::Tag;
use delzhomo::{Refusal, restore_into, store_into};

use crate::drawn::joined;
use crate::listing::{FRONT, RECORD, VERSION, records};

pub const RECORD_LIMIT: usize = 1_048_576;

/// A field that holds a distance.
#[derive(Clone, Copy, PartialEq, Eq)]
pub enum Field {
    First,
    Second,
}

impl Field {
    /// The number that a refusal has for it.
    pub fn extra(self) -> usize {
        self as usize
    }

    fn bytes(self) -> Range<usize> {
        match self {
            Self::First => 2..4,
            Self::Second => 4..6,
        }
    }

    /// What a record has in it.
    pub fn of(self, record: &[u8]) -> i16 {
        let bytes = record[self.bytes()].try_into();
        i16::from_be_bytes(bytes.expect("two bytes"))
    }

    pub fn put(self, record: &mut [u8], number: i16) {
        record[self.bytes()].copy_from_slice(&number.to_be_bytes());
    }
}

/// A field of the records of a tag, and what is taken off it.
pub struct Carrier {
    pub tag: Tag,
    pub field: Field,
    less: i32,
}

const fn less(tag: Tag, field: Field, less: i32) -> Carrier {
    Carrier { tag, field, less }
}

/// In the order in which the fields of a record are moved.
pub const CARRIERS: [Carrier; 11] = [
    less(Tag::Jump, Field::First, 3),
    less(Tag::JumpIfFalse, Field::First, 3),
    less(Tag::Skip, Field::First, 3),
    less(Tag::Context, Field::First, 3),
    less(Tag::InvokeStatic, Field::First, 3),
    less(Tag::InvokeVirtual, Field::First, 3),
    less(Tag::Conditional, Field::First, 3),
    less(Tag::Conditional, Field::Second, 5),
    less(Tag::SwitchLabel, Field::First, 3),
    less(Tag::SwitchLabel, Field::Second, 5),
    less(Tag::Switch, Field::First, 11),
];

/// Those of a tag, each with its number.
fn carriers(tag: u8) -> impl Iterator<Item = (usize, &'static Carrier)> {
    let carriers = CARRIERS.iter().enumerate();
    carriers.filter(move |(_, carrier)| carrier.tag.number() == tag)
}

#[derive(Clone, Copy, PartialEq, Eq, PartialOrd, Ord)]
pub enum Way {
    Store,
    Restore,
}

impl Way {
    pub const BOTH: [Self; 2] = [Self::Store, Self::Restore];

    pub fn name(self) -> &'static str {
        match self {
            Self::Store => "store",
            Self::Restore => "restore",
        }
    }

    pub fn back(self) -> Self {
        match self {
            Self::Store => Self::Restore,
            Self::Restore => Self::Store,
        }
    }

    /// What the library does.
    pub fn write(self, listing: &[u8], out: &mut [u8]) -> Result<usize, Refusal> {
        match self {
            Self::Store => store_into(listing, out),
            Self::Restore => restore_into(listing, out),
        }
    }

    fn moved(self, number: i16, less: i32) -> Option<i16> {
        let moved = match self {
            Self::Store => i32::from(number) - less,
            Self::Restore => i32::from(number) + less,
        };
        i16::try_from(moved).ok()
    }
}

/// The listing that is written if there is room for it, or 30, or the first 33.
pub fn moved(listing: &[u8], way: Way) -> Result<Vec<u8>, Refusal> {
    if !is_listing(listing) {
        return Err(Refusal {
            number: 30,
            place: 0,
            extra: 0,
        });
    }
    let mut moved = listing.to_vec();
    for (place, record) in moved[FRONT..].chunks_exact_mut(RECORD).enumerate() {
        move_record(record, way).map_err(|field| leaves(place, field))?;
    }
    Ok(moved)
}

/// The field of this record leaves 16 bits.
pub fn leaves(place: usize, field: Field) -> Refusal {
    Refusal {
        number: 33,
        place,
        extra: field.extra(),
    }
}

fn move_record(record: &mut [u8], way: Way) -> Result<(), Field> {
    for (_, &Carrier { field, less, .. }) in carriers(record[0]) {
        let number = way.moved(field.of(record), less).ok_or(field)?;
        field.put(record, number);
    }
    Ok(())
}

fn is_listing(bytes: &[u8]) -> bool {
    let Some((front, rest)) = bytes.split_at_checked(FRONT) else {
        return false;
    };
    front[0] == VERSION
        && front[1..] == (rest.len() as u32).to_be_bytes()
        && rest.len().is_multiple_of(RECORD)
        && rest.len() / RECORD <= RECORD_LIMIT
        && records(bytes).all(is_record)
}

/// A tag that is emitted, and nothing in a field that it does not use.
fn is_record(record: &[u8]) -> bool {
    Tag::new(record[0]).is_some_and(|tag| {
        let mut unused = used(tag).into_iter().filter(|(_, is_used)| !is_used);
        unused.all(|(bytes, _)| record[bytes].iter().all(|&byte| byte == 0))
    })
}

/// Each field of a record but its tag and its node, and whether the tag uses it.
pub fn used(tag: Tag) -> [(Range<usize>, bool); 6] {
    let fields = tag.fields();
    [
        (1..2, fields.small.is_some()),
        (2..4, fields.first.is_some()),
        (4..6, fields.second.is_some()),
        (6..8, fields.line),
        (8..10, fields.flags),
        (10..18, fields.value.is_some()),
    ]
}

/// How often each of the fields occurs.
#[derive(Default)]
pub struct Carried([usize; CARRIERS.len()]);

impl Carried {
    /// All those of a listing.
    pub fn add_listing(&mut self, listing: &[u8]) {
        for (number, _) in records(listing).flat_map(|record| carriers(record[0])) {
            self.0[number] += 1;
        }
    }

    /// One of a record, by its extra.
    pub fn add_field(&mut self, record: &[u8], extra: usize) {
        let mut carriers = carriers(record[0]);
        let found = carriers.find(|(_, carrier)| carrier.field.extra() == extra);
        let (number, _) = found.expect("only such a field is moved");
        self.0[number] += 1;
    }

    pub fn add_all(&mut self, other: &Self) {
        for (count, more) in self.0.iter_mut().zip(other.0) {
            *count += more;
        }
    }
}

/// The sum, then each.
impl fmt::Display for Carried {
    fn fmt(&self, f: &mut fmt::Formatter<'_>) -> fmt::Result {
        let each = CARRIERS.iter().zip(self.0);
        let each = each.map(|(carrier, count)| format!("{carrier}: {count}"));
        let fields: usize = self.0.iter().sum();
        write!(f, "{fields} fields; {}", joined(each))
    }
}

impl fmt::Display for Carrier {
    fn fmt(&self, f: &mut fmt::Formatter<'_>) -> fmt::Result {
        write!(f, "{} {}", self.tag, self.field)
    }
}

impl fmt::Display for Field {
    fn fmt(&self, f: &mut fmt::Formatter<'_>) -> fmt::Result {
        match self {
            Self::First => write!(f, "first"),
            Self::Second => write!(f, "second"),
        }
    }
}
