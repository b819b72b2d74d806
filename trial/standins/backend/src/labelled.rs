use redscript_io::byte::Parts;

/// The code before its labels are resolved. It is made in `assemble/closure.rs`, from where the
/// assembler's private fields can be read.
pub struct Labelled {
    /// Each instruction with its virtual size; the label numbers are among its fields.
    pub code: Vec<(Parts, u16)>,
    /// The mark of each label, in the order of label numbers.
    pub marks: Vec<u32>,
    /// The virtual size of the whole code.
    pub size: u32,
}
