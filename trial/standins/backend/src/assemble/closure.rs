//! Stand-in for the closure module. Being a child of `assemble`, it is also the way to the
//! assembler's private code and labels.

use redscript_compiler_frontend::ast::Span;
use redscript_compiler_frontend::utils::ScopedMap;
use redscript_compiler_frontend::{MonoType, Symbols, ir};
use redscript_io::byte::{Parts, TryWrite};
use redscript_io::{FieldIndex, FunctionIndex, Instr, ScriptBundle};

use super::{AssembleError, Assembler, Label};
use crate::Labelled;
use crate::monomorph::Monomorphizer;

pub(super) const CALL_METHOD: &str = "Call";

pub(super) fn emit_closure<'ctx>(
    _: &mut Assembler<'_, 'ctx>,
    _: &ir::Closure<'ctx>,
    _: Span,
) -> Result<(), AssembleError<'ctx>> {
    unreachable!("a tree that holds NewClosure gives no unit")
}

impl Labelled {
    /// Does what `block_builder` does, up to `into_code`. Where the walk is refused, it gives what
    /// was made until then, with the error.
    pub fn walk<'ctx>(
        function_index: FunctionIndex,
        locals: Vec<ir::LocalInfo<'ctx>>,
        captures: Vec<(ir::Local, FieldIndex)>,
        block: &ir::Block<'ctx>,
        symbols: &Symbols<'ctx>,
        bundle: &mut ScriptBundle<'ctx>,
        monomorphizer: &mut Monomorphizer<'ctx>,
    ) -> (Self, Result<(), AssembleError<'ctx>>) {
        let type_env = ScopedMap::<&'ctx str, MonoType<'ctx>>::default();
        let mut assembler = Assembler::builder()
            .function_index(function_index)
            .locals(locals)
            .captures(captures)
            .symbols(symbols)
            .type_env(&type_env)
            .bundle(bundle)
            .monomorphizer(monomorphizer)
            .build()
            .expect("every local should coalesce");
        let end = assembler.assemble_block(block, None);
        let made = Self {
            code: assembler.code.iter().map(parts).collect(),
            marks: assembler.labels.into_values(),
            size: assembler.virtual_offset,
        };
        (made, end)
    }
}

fn parts(instr: &Instr<Label>) -> (Parts, u16) {
    (Parts::of(instr), instr.virtual_size())
}

impl TryWrite for Label {
    fn write(&self, parts: &mut Parts) {
        self.0.write(parts);
    }
}
