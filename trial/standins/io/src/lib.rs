//! Stand-in for `redscript_io`, around its unchanged `instr.rs`.

mod bundle;
mod index;
#[rustfmt::skip]
#[allow(unused_imports, clippy::all)]
mod instr;
pub mod util;

pub use bundle::{Function, FunctionFlags, Local, LocalFlags, ScriptBundle};
pub use byte;
pub use index::{
    CNameIndex, ClassIndex, EnumIndex, EnumValueIndex, FieldIndex, FunctionIndex, LocalIndex,
    ParameterIndex, ResourceIndex, StringIndex, TweakDbIndex, TypeIndex,
};
pub use instr::{
    Breakpoint, Conditional, Instr, InvokeFlags, Jump, Offset, Profile, Switch, SwitchLabel,
};
