//! Runs the published assembler on units, and makes units to run it on.

pub mod answer;
pub mod cases;
pub mod generate;
pub mod limits;
pub mod makers;
pub mod offsets;
pub mod program;
pub mod random;
pub mod reader;
pub mod record;
