//! Stand-in for `redscript_compiler_frontend`, around its unchanged `ir.rs` and `ir/intrinsic.rs`.

#[rustfmt::skip]
#[allow(dead_code, clippy::all)]
pub mod ir;
mod lower;
mod symbols;
mod types;
pub mod utils;
mod visitor;

pub use redscript_community_ast as ast;
pub use symbols::{
    FieldId, FreeFunction, FreeFunctionIndex, FunctionIndex, FunctionType, MethodId, Param,
    Symbols, TypeSchema,
};
pub use types::{CoalesceError, MonoType, RefType, Shape, TypeId, predef};
