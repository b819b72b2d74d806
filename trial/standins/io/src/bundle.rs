//! The bundle: definitions and names that the assembler looks up.

use std::cell::Cell;
use std::marker::PhantomData;
use std::ops::{Index, IndexMut};
use std::rc::Rc;

use crate::index::{PoolIndex, kinds};
use crate::{
    CNameIndex, ClassIndex, EnumIndex, EnumValueIndex, FieldIndex, FunctionIndex, LocalIndex,
    ParameterIndex, TypeIndex,
};

#[derive(Debug, Default)]
pub struct ScriptBundle<'ctx> {
    functions: Vec<Function>,
    class: Class,
    enum_: Enum,
    parameters: [Parameter; 2],
    empty_name: Rc<Cell<u32>>,
    context: PhantomData<&'ctx ()>,
}

impl ScriptBundle<'_> {
    /// `empty_name` holds the number of the empty name while a default is assembled.
    pub fn new(empty_name: Rc<Cell<u32>>) -> Self {
        Self {
            parameters: [false, true].map(Parameter::new),
            empty_name,
            ..Self::default()
        }
    }

    /// Adds a function, numbered as the unit says, and returns where it stands.
    pub fn add_function(&mut self, function: Function) -> usize {
        self.functions.push(function);
        self.functions.len() - 1
    }

    /// Adds a field of the one class, and returns its position.
    pub fn add_field(&mut self, field: FieldIndex) -> usize {
        self.class.fields.push(field);
        self.class.fields.len() - 1
    }

    /// Adds a value of the one enum, and returns its position.
    pub fn add_enum_value(&mut self, value: EnumValueIndex) -> usize {
        self.enum_.values.push(value);
        self.enum_.values.len() - 1
    }

    /// A parameter by its only property.
    pub fn parameter(is_short_circuit: bool) -> ParameterIndex {
        ParameterIndex::new(is_short_circuit.into())
    }

    pub fn strings_mut(&mut self) -> NamePool<kinds::String> {
        self.pool()
    }

    pub fn cnames_mut(&mut self) -> NamePool<kinds::CName> {
        self.pool()
    }

    pub fn resources_mut(&mut self) -> NamePool<kinds::Resource> {
        self.pool()
    }

    pub fn tdb_ids_mut(&mut self) -> NamePool<kinds::TweakDbId> {
        self.pool()
    }

    /// A local is numbered like its type.
    pub fn define(&mut self, local: Local) -> LocalIndex {
        LocalIndex::new(local.type_.into())
    }

    fn pool<A>(&self) -> NamePool<A> {
        NamePool {
            empty_name: self.empty_name.get(),
            kind: PhantomData,
        }
    }
}

impl Index<FunctionIndex> for ScriptBundle<'_> {
    type Output = Function;

    fn index(&self, index: FunctionIndex) -> &Function {
        &self.functions[index.entry]
    }
}

impl IndexMut<FunctionIndex> for ScriptBundle<'_> {
    fn index_mut(&mut self, index: FunctionIndex) -> &mut Function {
        &mut self.functions[index.entry]
    }
}

/// One class has all fields that the unit names.
impl Index<ClassIndex> for ScriptBundle<'_> {
    type Output = Class;

    fn index(&self, _: ClassIndex) -> &Class {
        &self.class
    }
}

/// One enum has all values that the unit names.
impl Index<EnumIndex> for ScriptBundle<'_> {
    type Output = Enum;

    fn index(&self, _: EnumIndex) -> &Enum {
        &self.enum_
    }
}

impl Index<ParameterIndex> for ScriptBundle<'_> {
    type Output = Parameter;

    fn index(&self, index: ParameterIndex) -> &Parameter {
        &self.parameters[u32::from(index) as usize]
    }
}

/// Names are numbers in decimal; the empty name has the number that the unit gives it. The
/// names of locals are no numbers, and no instruction holds them.
pub struct NamePool<A> {
    empty_name: u32,
    kind: PhantomData<A>,
}

impl<A> NamePool<A> {
    pub fn add(&self, name: impl AsRef<str>) -> PoolIndex<A> {
        PoolIndex::new(name.as_ref().parse().unwrap_or(self.empty_name))
    }
}

#[derive(Debug)]
pub struct Function {
    name: CNameIndex,
    flags: FunctionFlags,
    parameters: Vec<ParameterIndex>,
    return_type: Option<TypeIndex>,
}

impl Function {
    pub fn new(name: CNameIndex, flags: FunctionFlags, parameters: Vec<ParameterIndex>) -> Self {
        Self {
            name,
            flags,
            parameters,
            return_type: None,
        }
    }

    pub fn with_return_type(self, return_type: Option<TypeIndex>) -> Self {
        Self {
            return_type,
            ..self
        }
    }

    pub fn name(&self) -> CNameIndex {
        self.name
    }

    pub fn flags(&self) -> FunctionFlags {
        self.flags
    }

    pub fn parameters(&self) -> &[ParameterIndex] {
        &self.parameters
    }

    pub fn return_type(&self) -> Option<TypeIndex> {
        self.return_type
    }

    /// No instruction depends on the list of locals.
    pub fn set_locals(&mut self, _locals: Vec<LocalIndex>) {}
}

#[derive(Debug, Clone, Copy, Default)]
pub struct FunctionFlags {
    pub is_final: bool,
    pub is_static: bool,
    pub is_native: bool,
}

impl FunctionFlags {
    pub fn is_final(self) -> bool {
        self.is_final
    }

    pub fn is_static(self) -> bool {
        self.is_static
    }

    pub fn is_native(self) -> bool {
        self.is_native
    }
}

#[derive(Debug, Default)]
pub struct Parameter {
    flags: ParameterFlags,
}

impl Parameter {
    fn new(is_short_circuit: bool) -> Self {
        Self {
            flags: ParameterFlags { is_short_circuit },
        }
    }

    pub fn flags(&self) -> ParameterFlags {
        self.flags
    }
}

#[derive(Debug, Clone, Copy, Default)]
pub struct ParameterFlags {
    is_short_circuit: bool,
}

impl ParameterFlags {
    pub fn is_short_circuit(self) -> bool {
        self.is_short_circuit
    }
}

#[derive(Debug, Default)]
pub struct Class {
    fields: Vec<FieldIndex>,
}

impl Class {
    pub fn fields(&self) -> &[FieldIndex] {
        &self.fields
    }
}

#[derive(Debug, Default)]
pub struct Enum {
    values: Vec<EnumValueIndex>,
}

impl Enum {
    pub fn values(&self) -> &[EnumValueIndex] {
        &self.values
    }
}

pub struct Local {
    type_: TypeIndex,
}

impl Local {
    pub fn new(_: CNameIndex, _: FunctionIndex, type_: TypeIndex, _: LocalFlags) -> Self {
        Self { type_ }
    }
}

#[derive(Default)]
pub struct LocalFlags;

impl LocalFlags {
    pub fn with_is_const(self, _: bool) -> Self {
        self
    }
}
