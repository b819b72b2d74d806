use redscript_compiler_frontend::MonoType;

/// A function to be made for some type arguments; here only the function counts.
pub struct Signature<A> {
    pub id: A,
}

impl<A> Signature<A> {
    pub fn new<'ctx>(id: A, _type_args: impl AsRef<[MonoType<'ctx>]>) -> Self {
        Self { id }
    }
}
