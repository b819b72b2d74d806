//! The indices of instructions. Each is the unit's own number, 0 among them.

use std::fmt;
use std::marker::PhantomData;

use byte::{Parts, TryWrite};

pub type CNameIndex = PoolIndex<kinds::CName>;
pub type TweakDbIndex = PoolIndex<kinds::TweakDbId>;
pub type ResourceIndex = PoolIndex<kinds::Resource>;
pub type StringIndex = PoolIndex<kinds::String>;
pub type TypeIndex = PoolIndex<kinds::Type>;
pub type ClassIndex = PoolIndex<kinds::Class>;
pub type EnumValueIndex = PoolIndex<kinds::EnumValue>;
pub type EnumIndex = PoolIndex<kinds::Enum>;
pub type ParameterIndex = PoolIndex<kinds::Parameter>;
pub type LocalIndex = PoolIndex<kinds::Local>;
pub type FieldIndex = PoolIndex<kinds::Field>;

#[derive(Debug, Clone, Copy, PartialEq, Eq)]
pub struct PoolIndex<A>(u32, PhantomData<A>);

impl<A> PoolIndex<A> {
    pub const fn new(index: u32) -> Self {
        Self(index, PhantomData)
    }
}

impl<A> From<PoolIndex<A>> for u32 {
    fn from(index: PoolIndex<A>) -> Self {
        index.0
    }
}

impl<A> fmt::Display for PoolIndex<A> {
    fn fmt(&self, f: &mut fmt::Formatter<'_>) -> fmt::Result {
        self.0.fmt(f)
    }
}

impl<A> TryWrite for PoolIndex<A> {
    fn write(&self, parts: &mut Parts) {
        self.0.write(parts);
    }
}

/// A function's index. Two calls of one unit may give the same number with other flags or
/// parameters, so the place of its definition in the bundle goes beside the number.
#[derive(Debug, Clone, Copy, PartialEq, Eq)]
pub struct FunctionIndex {
    pub(crate) entry: usize,
    index: u32,
}

impl FunctionIndex {
    pub fn new(entry: usize, index: u32) -> Self {
        Self { entry, index }
    }
}

impl fmt::Display for FunctionIndex {
    fn fmt(&self, f: &mut fmt::Formatter<'_>) -> fmt::Result {
        self.index.fmt(f)
    }
}

impl TryWrite for FunctionIndex {
    fn write(&self, parts: &mut Parts) {
        self.index.write(parts);
    }
}

pub mod kinds {
    macro_rules! kinds {
        ($($kind:ident)*) => {
            $(#[derive(Debug, Clone, Copy, PartialEq, Eq)] pub struct $kind;)*
        };
    }

    kinds! { CName TweakDbId Resource String Type Class EnumValue Enum Parameter Local Field }
}
