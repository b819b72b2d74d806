//! Where the library parts from what is expected of it.

use std::fmt;

use delzhomo::{Refusal, Totals};
use oracle::answer::Stop;

/// One of them, with what each side says.
#[derive(Debug)]
pub struct Difference {
    /// What was asked.
    pub asked: &'static str,
    pub library: String,
    pub expected: String,
}

pub type Compared<T> = Result<T, Difference>;

/// The same value on both sides.
pub fn same<T: PartialEq + Said>(asked: &'static str, library: T, expected: T) -> Compared<()> {
    if library == expected {
        return Ok(());
    }
    Err(Difference {
        asked,
        library: library.said(),
        expected: expected.said(),
    })
}

/// Refused as the published assembler stops: with its three numbers, or, where it panics, with
/// document 01's number for that.
pub fn stopped<T: Said>(
    asked: &'static str,
    library: Result<T, Refusal>,
    stop: Stop,
) -> Compared<()> {
    let is_same = match (&library, stop) {
        (Err(found), Stop::Refused(expected)) => *found == refusal(expected),
        (Err(found), Stop::Panicked(Some(number))) => found.number == number as usize,
        _ => false,
    };
    match is_same {
        true => Ok(()),
        false => Err(Difference {
            asked,
            library: library.said(),
            expected: stop.to_string(),
        }),
    }
}

/// What is said of lent buffers and of stripped units, or the rule that is broken.
pub fn holds(asked: &'static str, is_so: bool, rule: &str) -> Compared<()> {
    match is_so {
        true => Ok(()),
        false => Err(Difference {
            asked,
            library: format!("it is not so that {rule}"),
            expected: "it is so".to_string(),
        }),
    }
}

/// A refusal of the oracle's as one of the library's.
pub fn refusal(refusal: oracle::reader::Refusal) -> Refusal {
    Refusal {
        number: refusal.number as usize,
        place: refusal.place,
        extra: refusal.extra,
    }
}

/// Words for what a side says.
pub trait Said {
    fn said(&self) -> String;
}

impl Said for Totals {
    fn said(&self) -> String {
        let Self {
            records,
            labels,
            size,
        } = self;
        format!("{records} records, {labels} labels, size {size}")
    }
}

impl Said for usize {
    fn said(&self) -> String {
        format!("{self} records")
    }
}

impl<T: Said> Said for Result<T, Refusal> {
    fn said(&self) -> String {
        match self {
            Ok(made) => made.said(),
            Err(refusal) => refusal.line(),
        }
    }
}

impl fmt::Display for Difference {
    fn fmt(&self, f: &mut fmt::Formatter<'_>) -> fmt::Result {
        writeln!(f, "  asked: {}", self.asked)?;
        writeln!(f, "  library: {}", self.library)?;
        writeln!(f, "  expected: {}", self.expected)
    }
}
