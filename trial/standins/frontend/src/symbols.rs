//! Symbols: free functions and types that the assembler looks up.

use std::cell::Cell;
use std::ops::Index;
use std::rc::Rc;

use crate::ir::Intrinsic;
use crate::types::{Shape, TypeId};

#[derive(Debug)]
pub struct Symbols<'ctx> {
    free_functions: Vec<FreeFunction<'ctx>>,
    struct_: TypeDef,
    class: TypeDef,
    enum_: TypeDef,
    primitive: TypeDef,
    closures: Vec<TypeDef>,
    last_type: Rc<Cell<u32>>,
}

impl<'ctx> Symbols<'ctx> {
    /// `last_type` is set to the index of each type looked up.
    pub fn new(last_type: Rc<Cell<u32>>) -> Self {
        let aggregate = |is_struct| TypeDef::aggregate(is_struct, vec![]);
        Self {
            free_functions: vec![],
            struct_: aggregate(true),
            class: aggregate(false),
            enum_: TypeDef(TypeSchema::Enum(())),
            primitive: TypeDef(TypeSchema::Primitive),
            closures: vec![],
            last_type,
        }
    }

    pub fn add_free_function(&mut self, function: FreeFunction<'ctx>) -> FreeFunctionIndex {
        self.free_functions.push(function);
        FreeFunctionIndex(self.free_functions.len() - 1)
    }

    /// Adds a class whose only method is `call`.
    pub fn add_closure(&mut self, call: FunctionIndex) -> TypeId<'ctx> {
        let index = self.closures.len() as u32;
        self.closures
            .push(TypeDef::aggregate(false, vec![Method(call)]));
        TypeId::new(Shape::Closure, index)
    }
}

impl<'ctx> Index<FreeFunctionIndex> for Symbols<'ctx> {
    type Output = FreeFunction<'ctx>;

    fn index(&self, index: FreeFunctionIndex) -> &FreeFunction<'ctx> {
        &self.free_functions[index.0]
    }
}

impl<'ctx> Index<TypeId<'ctx>> for Symbols<'ctx> {
    type Output = TypeDef;

    fn index(&self, id: TypeId<'ctx>) -> &TypeDef {
        self.last_type.set(id.index);
        match id.shape {
            Shape::Struct => &self.struct_,
            Shape::Class => &self.class,
            Shape::Enum => &self.enum_,
            Shape::Closure => &self.closures[id.index as usize],
            _ => &self.primitive,
        }
    }
}

#[derive(Debug)]
pub struct TypeDef(TypeSchema);

impl TypeDef {
    fn aggregate(is_struct: bool, methods: Vec<Method>) -> Self {
        Self(TypeSchema::Aggregate(Aggregate {
            flags: AggregateFlags { is_struct },
            methods: Methods(methods),
        }))
    }

    pub fn schema(&self) -> &TypeSchema {
        &self.0
    }
}

#[derive(Debug)]
pub enum TypeSchema {
    Aggregate(Aggregate),
    Enum(()),
    Primitive,
}

impl TypeSchema {
    pub fn as_aggregate(&self) -> Option<&Aggregate> {
        match self {
            Self::Aggregate(aggregate) => Some(aggregate),
            _ => None,
        }
    }
}

#[derive(Debug)]
pub struct Aggregate {
    flags: AggregateFlags,
    methods: Methods,
}

impl Aggregate {
    pub fn flags(&self) -> AggregateFlags {
        self.flags
    }

    pub fn methods(&self) -> &Methods {
        &self.methods
    }
}

#[derive(Debug, Clone, Copy)]
pub struct AggregateFlags {
    is_struct: bool,
}

impl AggregateFlags {
    pub fn is_struct(self) -> bool {
        self.is_struct
    }
}

#[derive(Debug)]
pub struct Methods(Vec<Method>);

impl Methods {
    /// The only name asked for is that of a closure's only method.
    pub fn by_name(&self, _: &str) -> impl Iterator<Item = &Method> {
        self.0.iter()
    }
}

#[derive(Debug)]
pub struct Method(FunctionIndex);

impl Method {
    pub fn key(&self) -> &FunctionIndex {
        &self.0
    }
}

/// Leads to a function of the bundle: where it stands there, and the unit's number for it.
#[derive(Debug, Clone, Copy)]
pub struct FunctionIndex {
    pub entry: usize,
    pub index: u32,
}

#[derive(Debug, Clone, Copy)]
pub struct FreeFunctionIndex(usize);

/// A free function: an intrinsic, an alias of a method, or a function of the bundle.
#[derive(Debug)]
pub enum FreeFunction<'ctx> {
    Intrinsic(Intrinsic, FunctionType),
    Alias(MethodId<'ctx>, FunctionType),
    Plain(FunctionIndex, FunctionType),
}

impl<'ctx> FreeFunction<'ctx> {
    pub fn intrinsic(&self) -> Option<Intrinsic> {
        match self {
            Self::Intrinsic(intrinsic, _) => Some(*intrinsic),
            _ => None,
        }
    }

    pub fn method_alias(&self) -> Option<MethodId<'ctx>> {
        match self {
            Self::Alias(method, _) => Some(*method),
            _ => None,
        }
    }

    pub fn type_(&self) -> &FunctionType {
        match self {
            Self::Intrinsic(_, type_) | Self::Alias(_, type_) | Self::Plain(_, type_) => type_,
        }
    }
}

#[derive(Debug)]
pub struct FunctionType {
    params: Vec<Param>,
}

impl FunctionType {
    pub fn new(params: Vec<Param>) -> Self {
        Self { params }
    }

    pub fn params(&self) -> &[Param] {
        &self.params
    }
}

#[derive(Debug)]
pub struct Param {
    flags: ParamFlags,
}

impl Param {
    pub fn new(is_short_circuit: bool) -> Self {
        Self {
            flags: ParamFlags { is_short_circuit },
        }
    }

    pub fn flags(&self) -> ParamFlags {
        self.flags
    }
}

#[derive(Debug, Clone, Copy)]
pub struct ParamFlags {
    is_short_circuit: bool,
}

impl ParamFlags {
    pub fn is_short_circuit(self) -> bool {
        self.is_short_circuit
    }
}

#[derive(Debug, Clone, Copy)]
pub struct MethodId<'ctx> {
    parent: TypeId<'ctx>,
    index: FunctionIndex,
}

impl<'ctx> MethodId<'ctx> {
    pub fn new(parent: TypeId<'ctx>, index: FunctionIndex) -> Self {
        Self { parent, index }
    }

    pub fn parent(&self) -> TypeId<'ctx> {
        self.parent
    }

    pub fn index(&self) -> FunctionIndex {
        self.index
    }
}

/// A field of a class or a value of an enum, by its position in the bundle's list.
#[derive(Debug, Clone, Copy)]
pub struct FieldId<'ctx> {
    parent: TypeId<'ctx>,
    index: FieldIndex,
}

impl<'ctx> FieldId<'ctx> {
    pub fn new(parent: TypeId<'ctx>, position: usize) -> Self {
        Self {
            parent,
            index: FieldIndex(position),
        }
    }

    pub fn parent(&self) -> TypeId<'ctx> {
        self.parent
    }

    pub fn index(&self) -> FieldIndex {
        self.index
    }
}

#[derive(Debug, Clone, Copy)]
pub struct FieldIndex(usize);

impl From<FieldIndex> for usize {
    fn from(index: FieldIndex) -> Self {
        index.0
    }
}
