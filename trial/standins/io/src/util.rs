/// Named by an attribute of `instr.rs` that is about reading.
pub struct Prefixed;
