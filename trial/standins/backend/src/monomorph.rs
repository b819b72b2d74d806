//! The monomorphizer: the way from types and functions to the indices of instructions.

use std::cell::RefCell;
use std::collections::{HashMap, VecDeque};
use std::marker::PhantomData;

use redscript_compiler_frontend::ast::Span;
use redscript_compiler_frontend::{
    FreeFunction, FreeFunctionIndex, FunctionIndex, MethodId, MonoType, Symbols, TypeId,
};
use redscript_io::{
    ClassIndex, EnumIndex, FunctionIndex as PoolFunctionIndex, ScriptBundle, TypeIndex,
};

use crate::inputs::Signature;

/// The lines at a place, in the order in which they are asked for. A call that is the closure of
/// a closure call is asked twice: for its own line, then for that of the closure call.
pub type Lines = HashMap<u32, VecDeque<u16>>;

pub struct Monomorphizer<'ctx> {
    lines: RefCell<Lines>,
    context: PhantomData<&'ctx ()>,
}

impl<'ctx> Monomorphizer<'ctx> {
    pub fn new(lines: Lines) -> Self {
        Self {
            lines: RefCell::new(lines),
            context: PhantomData,
        }
    }

    pub(super) fn source_line(&self, span: Span) -> u16 {
        self.lines
            .borrow_mut()
            .get_mut(&span.start)
            .and_then(VecDeque::pop_front)
            .expect("every call should have its line")
    }

    pub fn type_(
        &mut self,
        typ: &MonoType<'ctx>,
        _: &Symbols<'ctx>,
        _: &mut ScriptBundle<'ctx>,
    ) -> TypeIndex {
        TypeIndex::new(typ.id().index())
    }

    pub fn class(
        &mut self,
        typ: &MonoType<'ctx>,
        _: &Symbols<'ctx>,
        _: &mut ScriptBundle<'ctx>,
    ) -> ClassIndex {
        ClassIndex::new(typ.id().index())
    }

    pub fn existing_enum(&self, typ: TypeId<'ctx>) -> Option<EnumIndex> {
        Some(EnumIndex::new(typ.index()))
    }

    pub fn function(
        &mut self,
        sig: Signature<FreeFunctionIndex>,
        symbols: &Symbols<'ctx>,
        _: &mut ScriptBundle<'ctx>,
    ) -> PoolFunctionIndex {
        match &symbols[sig.id] {
            FreeFunction::Plain(index, _) => pool_index(*index),
            other => panic!("`{other:?}` should not be made for type arguments"),
        }
    }

    pub fn existing_alias(&self, method: MethodId<'ctx>) -> Option<PoolFunctionIndex> {
        Some(pool_index(method.index()))
    }

    pub fn mono_method(
        &mut self,
        _: &MonoType<'ctx>,
        index: FunctionIndex,
        _: &Symbols<'ctx>,
        _: &mut ScriptBundle<'ctx>,
    ) -> PoolFunctionIndex {
        pool_index(index)
    }

    pub fn method(
        &mut self,
        sig: Signature<MethodWithReceiver>,
        _: &Symbols<'ctx>,
        _: &mut ScriptBundle<'ctx>,
    ) -> PoolFunctionIndex {
        pool_index(sig.id.0)
    }
}

fn pool_index(index: FunctionIndex) -> PoolFunctionIndex {
    PoolFunctionIndex::new(index.entry, index.index)
}

/// A method of a generic class; here only the method counts.
pub struct MethodWithReceiver(FunctionIndex);

impl MethodWithReceiver {
    pub fn new(_receiver: MonoType<'_>, index: FunctionIndex) -> Self {
        Self(index)
    }
}
