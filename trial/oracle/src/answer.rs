//! What is said of a unit, and how it is printed.

use std::fmt;
use std::panic::{self, AssertUnwindSafe};

use redscript_compiler_backend::Labelled;
use redscript_compiler_backend::assemble::AssembleError;
use redscript_io::Instr;

use crate::limits::Limits;
use crate::makers::maker;
use crate::program::{Error, Program};
use crate::reader::{self, ExtraArguments, Refusal};
use crate::record::Record;

/// Which of a unit's two answers is asked for.
#[derive(Debug, Clone, Copy, PartialEq, Eq)]
pub enum Mode {
    Stage,
    Labelled,
}

impl Mode {
    pub fn name(self) -> &'static str {
        match self {
            Self::Stage => "stage",
            Self::Labelled => "labelled",
        }
    }
}

/// What an answer depends on beside the unit.
#[derive(Debug, Clone, Copy)]
pub struct Options {
    pub extra_arguments: ExtraArguments,
    pub limits: Limits,
}

/// The answer for a unit, a line for each record and mark.
pub fn answer(unit: &[u8], mode: Mode, options: Options) -> String {
    match lines(unit, mode, options) {
        Ok(lines) => lines,
        Err(stop) => format!("{stop}\n"),
    }
}

fn lines(unit: &[u8], mode: Mode, options: Options) -> Result<String, Stop> {
    let read = reader::read(unit, options.extra_arguments, None);
    let mut program = read.map_err(Stop::Refused)?;
    check_label_count(unit, &mut program, options)?;
    match mode {
        Mode::Stage => Ok(stage_lines(&stage(&mut program, options.limits)?)),
        Mode::Labelled => Ok(labelled_lines(&labelled(&mut program)?)),
    }
}

/// Why a unit gives no code.
#[derive(Debug, Clone, Copy, PartialEq, Eq)]
pub enum Stop {
    Refused(Refusal),
    /// The assembler panicked where document 01 has this number, if it is known.
    Panicked(Option<u32>),
}

impl fmt::Display for Stop {
    fn fmt(&self, f: &mut fmt::Formatter<'_>) -> fmt::Result {
        match self {
            Self::Refused(refusal) => {
                let Refusal {
                    number,
                    place,
                    extra,
                } = refusal;
                write!(f, "refused {number} {place} {extra}")
            }
            Self::Panicked(Some(number)) => write!(f, "panic {number}"),
            Self::Panicked(None) => write!(f, "panic"),
        }
    }
}

/// 15 at a limit that is lower than the assembler's own, at which it panics: the walk makes this
/// label before it ends or is refused.
fn check_label_count(unit: &[u8], program: &mut Program, options: Options) -> Result<(), Stop> {
    let (made, _) = guarded(|| program.walk())?;
    let limit = options.limits.labels;
    if made.marks.len() <= limit {
        return Ok(());
    }
    Err(Stop::Refused(Refusal {
        number: 15,
        place: maker(unit, limit, options.extra_arguments),
        extra: 0,
    }))
}

/// Resolved code.
pub fn stage(program: &mut Program, limits: Limits) -> Result<Vec<Instr>, Stop> {
    match guarded(|| program.code())? {
        Ok(code) => match too_distant(code.iter().map(Record::resolved), limits) {
            Some(refusal) => Err(Stop::Refused(refusal)),
            None => Ok(code),
        },
        Err(AssembleError::LabelTooDistant) => {
            let labelled = labelled(program)?;
            let refusal = too_distant(measured(&labelled), limits);
            Err(Stop::Refused(refusal.expect("some distance is too long")))
        }
        Err(error) => Err(Stop::Refused(refusal(&error))),
    }
}

/// Labelled code and marks.
pub fn labelled(program: &mut Program) -> Result<Labelled, Stop> {
    guarded(|| program.labelled())?.map_err(|error| Stop::Refused(refusal(&error)))
}

/// Runs the assembler, which may panic.
fn guarded<T>(run: impl FnOnce() -> T) -> Result<T, Stop> {
    panic::catch_unwind(AssertUnwindSafe(run)).map_err(|panic| {
        let is_label_count = panic
            .downcast_ref::<String>()
            .is_some_and(|message| message.starts_with("label count"));
        Stop::Panicked(is_label_count.then_some(15))
    })
}

/// Document 01's number for an error, with the error's own place and extra.
fn refusal(error: &Error) -> Refusal {
    let (number, extra) = match error {
        AssembleError::InvalidControlFlow("break", ..) => (10, 0),
        AssembleError::InvalidControlFlow(..) => (11, 0),
        AssembleError::TooManyArguments(count, _) => (12, *count),
        AssembleError::TemporaryReferenceArgument(ordinal, _) => (13, *ordinal),
        AssembleError::InvalidIntrinsic(..) => (14, 0),
        error => unreachable!("a unit should not give {error:?}"),
    };
    let span = error.span().expect("every error of the walk has its span");
    Refusal {
        number,
        place: span.start as usize,
        extra,
    }
}

/// The assembler does not say which distance is too long: the first in the order of records is
/// searched here, a record's first before its second.
fn too_distant(records: impl Iterator<Item = Record>, limits: Limits) -> Option<Refusal> {
    records.enumerate().find_map(|(place, record)| {
        let distances = [record.first, record.second];
        let used = &distances[..record.locations];
        let extra = used.iter().position(|&distance| !limits.reach(distance))?;
        Some(Refusal {
            number: 32,
            place,
            extra,
        })
    })
}

/// The records of labelled code with distances in place of label numbers. Resolved code has them
/// by itself, but there is none where one is too long.
fn measured(labelled: &Labelled) -> impl Iterator<Item = Record> {
    let mut start = 0;
    labelled.code.iter().map(move |(parts, size)| {
        let mut record = Record::labelled(parts);
        for label in record.locations_mut() {
            *label = i64::from(labelled.marks[*label as usize]) - start;
        }
        start += i64::from(*size);
        record
    })
}

fn stage_lines(code: &[Instr]) -> String {
    let (records, size) = record_lines(
        code.iter()
            .map(|instr| (Record::resolved(instr), instr.virtual_size())),
    );
    format!("code {} {size}\n{records}", code.len())
}

fn labelled_lines(labelled: &Labelled) -> String {
    let Labelled { code, marks, size } = labelled;
    let records = code
        .iter()
        .map(|(parts, size)| (Record::labelled(parts), *size));
    let (records, _) = record_lines(records);
    let count = code.len();
    let mark_lines: String = marks.iter().map(|mark| format!("{mark}\n")).collect();
    let labels = marks.len();
    format!("labelled {count} {size}\n{records}labels {labels}\n{mark_lines}")
}

/// A line for each record with its start, and the sum of the sizes.
fn record_lines(records: impl Iterator<Item = (Record, u16)>) -> (String, u64) {
    let mut lines = String::new();
    let mut start = 0;
    for (record, size) in records {
        lines += &format!("{start} {record}\n");
        start += u64::from(size);
    }
    (lines, start)
}
