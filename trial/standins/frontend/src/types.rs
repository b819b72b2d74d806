//! Types: what the assembler asks of one (its shape) and the unit's index for it.

use std::borrow::Cow;
use std::convert::Infallible;
use std::fmt;
use std::marker::PhantomData;

use crate::Symbols;
use crate::utils::ScopedMap;

/// What decides how a type is treated.
#[derive(Debug, Clone, Copy, PartialEq, Eq)]
pub enum Shape {
    Variant,
    Array,
    Struct,
    Class,
    Enum,
    String,
    CName,
    ResRef,
    TweakDbId,
    Float,
    Double,
    Int8,
    Int16,
    Int32,
    Int64,
    Uint8,
    Uint16,
    Uint32,
    Uint64,
    Bool,
    Ref,
    WeakRef,
    /// A primitive with no value of its own.
    Other,
    /// The class of a closure, with the method that calls it.
    Closure,
}

#[derive(Debug, Clone, Copy)]
pub struct TypeId<'ctx> {
    pub(crate) shape: Shape,
    pub(crate) index: u32,
    context: PhantomData<&'ctx ()>,
}

impl TypeId<'_> {
    pub const fn new(shape: Shape, index: u32) -> Self {
        Self {
            shape,
            index,
            context: PhantomData,
        }
    }

    pub fn index(self) -> u32 {
        self.index
    }
}

/// Types are compared with predefined ones only, which have no index.
impl PartialEq for TypeId<'_> {
    fn eq(&self, other: &Self) -> bool {
        self.shape == other.shape
    }
}

pub mod predef {
    use super::{Shape, TypeId};

    macro_rules! predef {
        ($($name:ident: $shape:ident;)*) => {
            $(pub const $name: TypeId<'static> = TypeId::new(Shape::$shape, 0);)*
        };
    }

    predef! {
        VARIANT: Variant;
        ARRAY: Array;
        STRING: String;
        CNAME: CName;
        RES_REF: ResRef;
        TWEAK_DB_ID: TweakDbId;
        FLOAT: Float;
        DOUBLE: Double;
        INT8: Int8;
        INT16: Int16;
        INT32: Int32;
        INT64: Int64;
        UINT8: Uint8;
        UINT16: Uint16;
        UINT32: Uint32;
        UINT64: Uint64;
        BOOL: Bool;
        REF: Ref;
        WREF: WeakRef;
    }
}

/// One type stands for all stages of resolving it.
pub type TypeApp<'ctx> = Type<'ctx>;
pub type MonoType<'ctx> = Type<'ctx>;

#[derive(Debug, Clone, Copy)]
pub struct Type<'ctx> {
    id: TypeId<'ctx>,
}

impl<'ctx> Type<'ctx> {
    /// A type applied to arguments has the index of its argument: the unit names the whole.
    pub fn new(id: TypeId<'ctx>, args: impl AsRef<[Self]>) -> Self {
        let index = match args.as_ref() {
            [] => id.index,
            [arg, ..] => arg.id.index,
        };
        Self {
            id: TypeId { index, ..id },
        }
    }

    pub fn nullary(id: TypeId<'ctx>) -> Self {
        Self { id }
    }

    pub fn id(&self) -> TypeId<'ctx> {
        self.id
    }

    pub fn args(&self) -> &[Self] {
        &[]
    }

    pub fn ref_type(&self) -> Option<RefType> {
        match self.id.shape {
            Shape::Ref => Some(RefType::Strong),
            Shape::WeakRef => Some(RefType::Weak),
            _ => None,
        }
    }

    pub fn coalesce(&self, _: &Symbols<'ctx>) -> Result<Self, CoalesceError<'ctx>> {
        Ok(*self)
    }

    pub fn assume_mono(&self, _: &ScopedMap<'_, &'ctx str, Self>) -> Self {
        *self
    }

    /// A method's owner is the receiver's own class.
    pub fn instantiate_as(&self, _: TypeId<'ctx>, _: &Symbols<'ctx>) -> Option<Cow<'_, Self>> {
        Some(Cow::Borrowed(self))
    }
}

/// The type's name is its index.
impl fmt::Display for Type<'_> {
    fn fmt(&self, f: &mut fmt::Formatter<'_>) -> fmt::Result {
        self.id.index.fmt(f)
    }
}

#[derive(Debug, Clone, Copy, PartialEq, Eq)]
pub enum RefType {
    Strong,
    Weak,
}

/// The error of inference, which never happens here.
#[derive(Debug)]
pub struct CoalesceError<'ctx> {
    pub never: Infallible,
    pub context: PhantomData<&'ctx ()>,
}
