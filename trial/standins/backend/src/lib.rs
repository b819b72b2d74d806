//! Stand-in for the backend, around its unchanged `assemble.rs`.

// The names under which `assemble.rs` looks for these macros.
extern crate macros as bon;
extern crate macros as thiserror;

#[rustfmt::skip]
#[allow(dead_code, clippy::all)]
pub mod assemble;
mod inputs;
mod labelled;
mod monomorph;

pub use labelled::Labelled;
pub use monomorph::{Lines, Monomorphizer};
