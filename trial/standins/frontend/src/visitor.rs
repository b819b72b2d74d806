/// Named by `ir.rs`; nothing visits the tree.
pub trait Visitor {}
