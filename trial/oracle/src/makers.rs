//! Which node makes a label.
//!
//! The assembler does not say. Its walk is ended by a barrier before a node, then by one after it,
//! and the labels that it has made until then are counted. A label that is made between the two
//! is made by the node or by one in it.

use crate::reader::{self, BARRIER, Barrier, ExtraArguments};

/// The place of the innermost node that the walk has begun and not ended when it makes the label
/// of this number. The unit can be read, and the walk makes that label.
pub fn maker(unit: &[u8], label: usize, extra_arguments: ExtraArguments) -> usize {
    let labels_at = |barrier| labels_at(unit, barrier, extra_arguments);
    let is_open = |place: &&usize| {
        labels_at(Barrier::Before(**place)).is_some_and(|count| count <= label)
            && labels_at(Barrier::After(**place)).is_none_or(|count| count > label)
    };
    let program = reader::read(unit, extra_arguments, None).expect("the unit can be read");
    let maker = program.nodes().iter().rev().find(is_open);
    *maker.expect("some node makes the label")
}

/// How many labels the walk has made at the barrier; none if it is refused before.
fn labels_at(unit: &[u8], barrier: Barrier, extra_arguments: ExtraArguments) -> Option<usize> {
    let mut program = reader::read(unit, extra_arguments, Some(barrier)).ok()?;
    let (made, end) = program.walk();
    let is_met = end.is_err_and(|error| error.span() == Some(BARRIER));
    is_met.then_some(made.marks.len())
}
