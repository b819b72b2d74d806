//! What the published code makes of any distance, and of any stored field: also of those that no unit gives.

use std::any::Any;
use std::panic::{self, AssertUnwindSafe};

use redscript_io::{
    CNameIndex, Conditional, FunctionIndex, Instr, InvokeFlags, Jump, Offset, Switch, SwitchLabel,
    TypeIndex,
};

use crate::record::Record;

/// What is stored of an instruction with these distances, by `map_labels` as in `into_code`. None if a number overflows.
pub fn stored(name: &str, first: i16, second: i16) -> Option<Record> {
    unless_overflow(|| {
        let labelled = carrier(name, first, second);
        let instr = labelled.map_labels(|distance| Some(Offset::from(distance)));
        Record::stored(&instr.expect("no label is too distant"))
    })
}

/// The instruction with these fields stored, its distances as the accessors give them. None if a number overflows.
pub fn restored(name: &str, first: i16, second: i16) -> Option<Record> {
    let instr = carrier(name, Offset::from(first), Offset::from(second));
    unless_overflow(|| Record::resolved(&instr))
}

/// An instruction that carries labels, with these in their place.
fn carrier<Loc>(name: &str, first: Loc, second: Loc) -> Instr<Loc> {
    match name {
        "Jump" => Instr::Jump(Jump::new(first)),
        "JumpIfFalse" => Instr::JumpIfFalse(Jump::new(first)),
        "Skip" => Instr::Skip(Jump::new(first)),
        "Context" => Instr::Context(Jump::new(first)),
        "InvokeStatic" => Instr::InvokeStatic {
            exit: Jump::new(first),
            line: 0,
            function: FunctionIndex::new(0, 0),
            flags: InvokeFlags::default(),
        },
        "InvokeVirtual" => Instr::InvokeVirtual {
            exit: Jump::new(first),
            line: 0,
            function: CNameIndex::new(0),
            flags: InvokeFlags::default(),
        },
        "Conditional" => Instr::Conditional(Conditional::new(first, second)),
        "SwitchLabel" => Instr::SwitchLabel(SwitchLabel::new(first, second)),
        "Switch" => Instr::Switch(Switch::new(TypeIndex::new(0), first)),
        _ => unreachable!("{name} carries no label"),
    }
}

/// Any other panic goes on.
fn unless_overflow<T>(run: impl FnOnce() -> T) -> Option<T> {
    match panic::catch_unwind(AssertUnwindSafe(run)) {
        Ok(made) => Some(made),
        Err(panic) if is_overflow(&*panic) => None,
        Err(panic) => panic::resume_unwind(panic),
    }
}

fn is_overflow(panic: &(dyn Any + Send)) -> bool {
    panic
        .downcast_ref::<&str>()
        .is_some_and(|message| message.ends_with("with overflow"))
}
