//! Stand-in for `redscript_community_ast`: source spans and literal constants.

use std::borrow::Cow;
use std::cmp::Ordering;

/// Where a node stands. There is no source: a span is the node's offset in the unit.
#[derive(Debug, Clone, Copy, PartialEq, Eq)]
pub struct Span {
    pub start: u32,
}

impl Span {
    pub fn contains(&self, pos: u32) -> bool {
        self.start == pos
    }

    pub fn cmp_pos(&self, pos: u32) -> Ordering {
        self.start.cmp(&pos)
    }

    pub fn merge(&self, other: &Self) -> Self {
        Self {
            start: self.start.min(other.start),
        }
    }
}

#[derive(Debug, Clone)]
pub enum Constant<'ctx> {
    String(Cow<'ctx, str>),
    CName(Cow<'ctx, str>),
    Resource(Cow<'ctx, str>),
    TweakDbId(Cow<'ctx, str>),
    F32(f32),
    F64(f64),
    I32(i32),
    I64(i64),
    U32(u32),
    U64(u64),
    Bool(bool),
}
