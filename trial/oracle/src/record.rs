//! Instructions as document 01's records.

use std::fmt;

use byte::Parts;
use redscript_io::{Instr, Offset};

/// An instruction's fields, with label numbers, distances or stored distances in `first` and `second`.
#[derive(Debug, Default)]
pub struct Record {
    pub tag: u8,
    pub small: u64,
    pub first: i64,
    pub second: i64,
    pub line: u64,
    pub flags: u64,
    pub value: u64,
    /// How many of `first` and `second` are used.
    pub locations: usize,
}

/// Where a declared field goes.
#[derive(Clone, Copy)]
enum Place {
    Small,
    First,
    Second,
    Line,
    Flags,
    Value,
    HighValue,
}

impl Record {
    /// The record of labelled code: locations are label numbers.
    pub fn labelled(parts: &Parts) -> Self {
        let mut record = Self {
            tag: parts.tag,
            ..Self::default()
        };
        let places = places(parts);
        assert_eq!(places.len(), parts.fields.len(), "fields of {}", parts.name);
        for (place, &field) in places.iter().zip(&parts.fields) {
            record.put(*place, field);
        }
        record
    }

    /// The record of resolved code: locations are distances, as the accessors give them.
    pub fn resolved(instr: &Instr) -> Self {
        let mut record = Self::labelled(&Parts::of(instr));
        (record.first, record.second) = distances(instr);
        record
    }

    /// The record of resolved code as it is stored: locations are the declared fields, from which the accessors make distances.
    pub fn stored(instr: &Instr) -> Self {
        let mut record = Self::labelled(&Parts::of(instr));
        for field in record.locations_mut() {
            let bits = u16::try_from(*field).expect("a field of 16 bits");
            *field = bits.cast_signed().into();
        }
        record
    }

    /// The used ones of `first` and `second`.
    pub fn locations_mut(&mut self) -> impl Iterator<Item = &mut i64> {
        [&mut self.first, &mut self.second]
            .into_iter()
            .take(self.locations)
    }

    fn put(&mut self, place: Place, field: u64) {
        match place {
            Place::Small => self.small = field,
            Place::First => self.first = self.location(field),
            Place::Second => self.second = self.location(field),
            Place::Line => self.line = field,
            Place::Flags => self.flags = field,
            Place::Value => self.value |= field,
            Place::HighValue => self.value |= field << 32,
        }
    }

    fn location(&mut self, label: u64) -> i64 {
        self.locations += 1;
        label.cast_signed()
    }
}

/// `tag small first second line flags value`.
impl fmt::Display for Record {
    fn fmt(&self, f: &mut fmt::Formatter<'_>) -> fmt::Result {
        let Self {
            tag,
            small,
            first,
            second,
            line,
            flags,
            value,
            ..
        } = self;
        write!(
            f,
            "{tag:02X} {small} {first} {second} {line} {flags} {value:016X}"
        )
    }
}

/// Where an instruction's fields go, in the order in which `instr.rs` declares them.
fn places(parts: &Parts) -> &'static [Place] {
    use Place::*;

    match parts.name {
        "Jump" | "JumpIfFalse" | "Skip" | "Context" => &[First],
        "Conditional" | "SwitchLabel" => &[First, Second],
        "Switch" => &[Value, First],
        "InvokeStatic" | "InvokeVirtual" => &[First, Line, Value, Flags],
        "Construct" => &[Small, Value],
        "EnumToI32" | "I32ToEnum" | "DynamicCast" => &[Value, Small],
        "EnumConst" => &[HighValue, Value],
        _ if parts.fields.is_empty() => &[],
        _ => &[Value],
    }
}

fn distances(instr: &Instr) -> (i64, i64) {
    match instr {
        Instr::Jump(jump) | Instr::JumpIfFalse(jump) | Instr::Skip(jump) | Instr::Context(jump) => {
            (distance(jump.target()), 0)
        }
        Instr::InvokeStatic { exit, .. } | Instr::InvokeVirtual { exit, .. } => {
            (distance(exit.target()), 0)
        }
        Instr::Conditional(instr) => (distance(instr.false_label()), distance(instr.exit())),
        Instr::Switch(instr) => (distance(instr.first_case()), 0),
        Instr::SwitchLabel(instr) => (distance(instr.next_case()), distance(instr.body())),
        _ => (0, 0),
    }
}

fn distance(offset: Offset) -> i64 {
    i32::from(offset).into()
}
