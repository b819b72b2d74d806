//! A unit's tree with all that the assembler looks up while it walks it.

use std::cell::Cell;
use std::collections::HashMap;
use std::rc::Rc;

use redscript_compiler_backend::assemble::{AssembleError, block_builder};
use redscript_compiler_backend::{Labelled, Lines, Monomorphizer};
use redscript_compiler_frontend::utils::ScopedMap;
use redscript_compiler_frontend::{
    FieldId, FreeFunction, FreeFunctionIndex, FunctionIndex, FunctionType, MethodId, MonoType,
    Param, Shape, Symbols, TypeId, ir,
};
use redscript_io::{
    CNameIndex, EnumValueIndex, FieldIndex, Function, FunctionFlags,
    FunctionIndex as PoolFunctionIndex, Instr, ParameterIndex, ScriptBundle, TypeIndex,
};

/// A tree that can be assembled. It owns all names.
pub struct Program {
    block: ir::Block<'static>,
    definitions: Definitions,
    function: PoolFunctionIndex,
    /// The places of its nodes, in the order of reading: a node before those in it.
    nodes: Vec<usize>,
}

pub type Error = AssembleError<'static>;

impl Program {
    pub fn new(
        block: ir::Block<'static>,
        nodes: Vec<usize>,
        mut definitions: Definitions,
        returns: bool,
    ) -> Self {
        let function = definitions.add_enclosing_function(returns);
        Self {
            block,
            definitions,
            function,
            nodes,
        }
    }

    pub fn nodes(&self) -> &[usize] {
        &self.nodes
    }

    /// Resolved code, by the public way in.
    pub fn code(&mut self) -> Result<Vec<Instr>, Error> {
        let definitions = &mut self.definitions;
        block_builder()
            .function_index(self.function)
            .locals(definitions.locals())
            .captures(definitions.captures())
            .block(&self.block)
            .symbols(&definitions.symbols)
            .type_env(&ScopedMap::default())
            .bundle(&mut definitions.bundle)
            .monomorphizer(&mut Monomorphizer::new(definitions.lines.clone()))
            .build()
    }

    /// Labelled code and marks, by way of the closure module; up to the error, if there is one.
    pub fn walk(&mut self) -> (Labelled, Result<(), Error>) {
        let definitions = &mut self.definitions;
        Labelled::walk(
            self.function,
            definitions.locals(),
            definitions.captures(),
            &self.block,
            &definitions.symbols,
            &mut definitions.bundle,
            &mut Monomorphizer::new(definitions.lines.clone()),
        )
    }

    /// The same, if there is no error.
    pub fn labelled(&mut self) -> Result<Labelled, Error> {
        let (labelled, end) = self.walk();
        end.map(|()| labelled)
    }
}

/// What a call's fields say of the function.
pub struct Callee {
    pub function: u32,
    pub name: u32,
    pub flags: u8,
    /// Of each parameter, whether it is short-circuit.
    pub params: Vec<bool>,
}

const FINAL: u8 = 1;
const STATIC: u8 = 2;
const NATIVE: u8 = 4;
const FORCE_STATIC: u8 = 8;

impl Callee {
    pub fn mode(&self) -> ir::CallMode {
        match self.has(FORCE_STATIC) {
            true => ir::CallMode::ForceStatic,
            false => ir::CallMode::Normal,
        }
    }

    fn has(&self, flag: u8) -> bool {
        self.flags & flag != 0
    }
}

/// Everything a unit's nodes refer to, filled while the unit is read.
pub struct Definitions {
    symbols: Symbols<'static>,
    bundle: ScriptBundle<'static>,
    lines: Lines,
    locals: Vec<(ir::Local, Storage, u32)>,
    local_ids: HashMap<(Storage, u32), ir::Local>,
}

/// Where a local of the tree is kept.
#[derive(Debug, Clone, Copy, PartialEq, Eq, Hash)]
pub enum Storage {
    Variable,
    Param,
    Capture,
}

impl Default for Definitions {
    fn default() -> Self {
        let last_type = Rc::new(Cell::new(0));
        Self {
            symbols: Symbols::new(last_type.clone()),
            bundle: ScriptBundle::new(last_type),
            lines: Lines::new(),
            locals: vec![],
            local_ids: HashMap::new(),
        }
    }
}

impl Definitions {
    /// The tree's local for an index of the unit. The tree has room for 65,536 of them.
    pub fn local(&mut self, storage: Storage, index: u32) -> ir::Local {
        *self.local_ids.entry((storage, index)).or_insert_with(|| {
            let id = u16::try_from(self.locals.len()).expect("at most 65,536 distinct locals");
            let local = match storage {
                Storage::Variable | Storage::Capture => ir::Local::Var(id),
                Storage::Param => ir::Local::Param(id),
            };
            self.locals.push((local, storage, index));
            local
        })
    }

    pub fn field(&mut self, parent: TypeId<'static>, index: u32) -> FieldId<'static> {
        FieldId::new(parent, self.bundle.add_field(FieldIndex::new(index)))
    }

    pub fn enum_value(&mut self, enum_: u32, value: u32) -> FieldId<'static> {
        let position = self.bundle.add_enum_value(EnumValueIndex::new(value));
        FieldId::new(TypeId::new(Shape::Enum, enum_), position)
    }

    /// Says which line is given for the expression at `place`, after those given before.
    pub fn line(&mut self, place: u32, line: u16) {
        self.lines.entry(place).or_default().push_back(line);
    }

    pub fn intrinsic(&mut self, code: u8, is_short_circuit: bool) -> FreeFunctionIndex {
        let type_ = FunctionType::new(vec![Param::new(is_short_circuit)]);
        let function = FreeFunction::Intrinsic(INTRINSICS[usize::from(code)], type_);
        self.symbols.add_free_function(function)
    }

    /// A free function; one that is forced static is an alias of a method.
    pub fn free_function(&mut self, callee: &Callee) -> FreeFunctionIndex {
        let index = self.function(callee);
        let type_ = FunctionType::new(vec![]);
        self.symbols.add_free_function(match callee.mode() {
            ir::CallMode::Normal => FreeFunction::Plain(index, type_),
            ir::CallMode::ForceStatic => FreeFunction::Alias(method(index), type_),
        })
    }

    /// A static method. The tree has no call mode for it: one that is forced static is static.
    pub fn static_method(&mut self, mut callee: Callee) -> MethodId<'static> {
        if callee.has(FORCE_STATIC) {
            callee.flags |= STATIC;
        }
        self.method(&callee)
    }

    pub fn method(&mut self, callee: &Callee) -> MethodId<'static> {
        method(self.function(callee))
    }

    /// The class of a closure whose `Call` method has this name.
    pub fn closure(&mut self, name: u32) -> TypeId<'static> {
        let callee = Callee {
            function: 0,
            name,
            flags: 0,
            params: vec![],
        };
        let call = self.function(&callee);
        self.symbols.add_closure(call)
    }

    fn function(&mut self, callee: &Callee) -> FunctionIndex {
        let flags = FunctionFlags {
            is_final: callee.has(FINAL),
            is_static: callee.has(STATIC),
            is_native: callee.has(NATIVE),
        };
        let params = callee.params.iter().copied();
        let params = params.map(ScriptBundle::parameter).collect();
        let function = Function::new(CNameIndex::new(callee.name), flags, params);
        FunctionIndex {
            entry: self.bundle.add_function(function),
            index: callee.function,
        }
    }

    /// The function that the unit's block is the body of.
    fn add_enclosing_function(&mut self, returns: bool) -> PoolFunctionIndex {
        let params = self.kept_in(Storage::Param);
        let params = params
            .map(|(_, index)| ParameterIndex::new(index))
            .collect();
        let function = Function::new(CNameIndex::new(0), FunctionFlags::default(), params)
            .with_return_type(returns.then(|| TypeIndex::new(0)));
        PoolFunctionIndex::new(self.bundle.add_function(function), 0)
    }

    /// Variables and parameters. A local's type carries the local's index.
    fn locals(&self) -> Vec<ir::LocalInfo<'static>> {
        let info = |(local, index)| ir::LocalInfo::new(local, None, plain_type(index), None);
        let variables = self.kept_in(Storage::Variable);
        let params = self.kept_in(Storage::Param);
        variables.chain(params).map(info).collect()
    }

    fn captures(&self) -> Vec<(ir::Local, FieldIndex)> {
        let field = |(local, index)| (local, FieldIndex::new(index));
        self.kept_in(Storage::Capture).map(field).collect()
    }

    fn kept_in(&self, storage: Storage) -> impl Iterator<Item = (ir::Local, u32)> {
        let locals = self.locals.iter().filter(move |local| local.1 == storage);
        locals.map(|&(local, _, index)| (local, index))
    }
}

fn method(index: FunctionIndex) -> MethodId<'static> {
    MethodId::new(TypeId::new(Shape::Class, 0), index)
}

pub fn type_(shape: Shape, index: u32) -> MonoType<'static> {
    MonoType::nullary(TypeId::new(shape, index))
}

/// A type of which only the index counts.
pub fn plain_type(index: u32) -> MonoType<'static> {
    type_(Shape::Other, index)
}

/// By code.
const INTRINSICS: [ir::Intrinsic; 34] = {
    use ir::Intrinsic::*;
    [
        Equals,
        NotEquals,
        ArrayClear,
        ArraySize,
        ArrayResize,
        ArrayFindFirst,
        ArrayFindLast,
        ArrayContains,
        ArrayCount,
        ArrayPush,
        ArrayPop,
        ArrayInsert,
        ArrayRemove,
        ArrayGrow,
        ArrayErase,
        ArrayLast,
        ArraySort,
        ArraySortByPredicate,
        ToString,
        EnumInt,
        IntEnum,
        LongIntEnum,
        ToVariant,
        FromVariant,
        VariantIsDefined,
        VariantIsRef,
        VariantIsArray,
        VariantTypeName,
        AsRef,
        Deref,
        RefToWeakRef,
        WeakRefToRef,
        IsDefined,
        NameOf,
    ]
};
