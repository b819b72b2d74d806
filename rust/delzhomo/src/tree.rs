//! The script tree: that of the published compiler, with every type, name and function already an index into its pool.
//!
//! A tree is plain data. [`Script::encode`] makes a unit of it, which is what the assembler takes.

/// A script: the body of one function.
#[derive(Debug, Clone, PartialEq, Default)]
pub struct Script {
    /// Whether the function returns a value. It decides on which side of a returned expression the Return stands.
    pub returns: bool,
    /// The function's statements.
    pub block: Block,
}

/// Statements, one after the other.
#[derive(Debug, Clone, PartialEq, Default)]
pub struct Block {
    /// In the order in which they run.
    pub stmts: Vec<Stmt>,
}

impl Block {
    /// A block of these statements.
    pub fn new(stmts: impl Into<Vec<Stmt>>) -> Self {
        Self {
            stmts: stmts.into(),
        }
    }
}

impl FromIterator<Stmt> for Block {
    fn from_iter<I: IntoIterator<Item = Stmt>>(stmts: I) -> Self {
        Self {
            stmts: stmts.into_iter().collect(),
        }
    }
}

/// A statement.
#[derive(Debug, Clone, PartialEq)]
pub enum Stmt {
    /// An expression whose value is not used.
    Expr(Expr),
    /// A block of its own.
    Block(Block),
    /// A loop that runs while its condition holds.
    While(ConditionalBlock),
    /// `if`, `else if`, .. `else`.
    Branches {
        /// Each condition with its block, in order.
        branches: Vec<ConditionalBlock>,
        /// The last `else`.
        default: Option<Block>,
    },
    /// A choice by value. An empty case falls through to the next.
    Switch {
        /// The index of the value's type.
        scrutinee_type: u32,
        /// The value.
        scrutinee: Expr,
        /// The cases, in order.
        cases: Vec<Case>,
        /// How many cases stand before the default; of no meaning without one.
        default_index: u32,
        /// The default's block.
        default: Option<Block>,
    },
    /// A local array that gets these elements.
    InitArray {
        /// The index of the local.
        local: u32,
        /// The index of the array's type.
        array_type: u32,
        /// Its elements.
        elements: Vec<Expr>,
    },
    /// A local that gets the default value of its type.
    InitDefault {
        /// The index of the local.
        local: u32,
        /// Which default.
        default: DefaultValue,
    },
    /// Leaves the innermost loop or switch.
    Break,
    /// Goes on with the next round of the innermost loop.
    Continue,
    /// Leaves the function, with a value or without.
    Return(Option<Expr>),
}

impl From<Expr> for Stmt {
    fn from(expr: Expr) -> Self {
        Self::Expr(expr)
    }
}

/// A condition and what runs if it holds.
#[derive(Debug, Clone, PartialEq)]
pub struct ConditionalBlock {
    /// The condition.
    pub condition: Expr,
    /// What it guards.
    pub block: Block,
}

impl ConditionalBlock {
    /// This condition with these statements.
    pub fn new(condition: Expr, stmts: impl Into<Vec<Stmt>>) -> Self {
        Self {
            condition,
            block: Block::new(stmts),
        }
    }
}

/// A case of a switch.
#[derive(Debug, Clone, PartialEq)]
pub struct Case {
    /// The value that the switch's is compared with.
    pub matcher: Expr,
    /// What runs then.
    pub block: Block,
}

impl Case {
    /// This value with these statements.
    pub fn new(matcher: Expr, stmts: impl Into<Vec<Stmt>>) -> Self {
        Self {
            matcher,
            block: Block::new(stmts),
        }
    }
}

/// The default value of a type.
#[derive(Debug, Clone, Copy, PartialEq, Eq)]
pub enum DefaultValue {
    /// A variant: nothing is emitted.
    Variant,
    /// An array of the type with this index, cleared.
    Array(u32),
    /// A struct of the class with this index, constructed of nothing.
    Struct(u32),
    /// Any other aggregate: null.
    Aggregate,
    /// The enum type with this index, made of 0.
    Enum(u32),
    /// String: the index of the empty one.
    String(u32),
    /// CName: the index of the empty one.
    CName(u32),
    /// ResRef: the index of the empty one.
    ResRef(u32),
    /// TweakDBID: the index of the empty one.
    TweakDbId(u32),
    /// Float: 0.
    F32,
    /// Double: 0.
    F64,
    /// Int8: 0.
    I8,
    /// Int16: 0.
    I16,
    /// Int32: 0.
    I32,
    /// Int64: 0.
    I64,
    /// Uint8: 0.
    U8,
    /// Uint16: 0.
    U16,
    /// Uint32: 0.
    U32,
    /// Uint64: 0.
    U64,
    /// Bool: false.
    Bool,
    /// A reference: null.
    Ref,
    /// A weak reference: null.
    WeakRef,
    /// A primitive that has no value: it is assigned nothing.
    NoValue,
}

/// An expression.
#[derive(Debug, Clone, PartialEq)]
pub enum Expr {
    /// An absent optional argument. It has no value.
    Nop,
    /// A constant.
    Const(Const),
    /// A null reference.
    Null {
        /// Whether it is a weak one.
        weak: bool,
    },
    /// A new object.
    NewInstance {
        /// The index of its class.
        class: u32,
    },
    /// A struct made of values.
    Construct {
        /// The index of its class.
        class: u32,
        /// The values of its fields, in order.
        args: Vec<Expr>,
    },
    /// A store, which yields the value.
    Assign {
        /// Where to; worked out first.
        place: Box<Expr>,
        /// What.
        value: Box<Expr>,
    },
    /// A field of a struct or of an object.
    Field {
        /// What the receiver is.
        form: FieldForm,
        /// The index of the field.
        field: u32,
        /// Whose field.
        receiver: Box<Expr>,
    },
    /// An element of an array.
    Index {
        /// Whether the array can grow; else it is a static one.
        dynamic: bool,
        /// The index of the array's type.
        array_type: u32,
        /// The array.
        array: Box<Expr>,
        /// Which element.
        index: Box<Expr>,
    },
    /// `condition ? then : otherwise`.
    Conditional {
        /// What decides.
        condition: Box<Expr>,
        /// The value if it holds.
        then: Box<Expr>,
        /// The value if not.
        otherwise: Box<Expr>,
    },
    /// A cast that is tested when it runs.
    DynCast {
        /// The index of the class.
        class: u32,
        /// Whether the reference is weak.
        weak: bool,
        /// What is cast.
        expr: Box<Expr>,
    },
    /// A local, or a captured variable.
    Local(Local),
    /// A call of a built-in function.
    Intrinsic(IntrinsicCall),
    /// A call of a function that stands by itself.
    FreeCall(Call),
    /// A call of a static method.
    StaticCall(Call),
    /// A call of a method on an object.
    InstanceCall {
        /// Whether the receiver is a weak reference.
        weak: bool,
        /// The object.
        receiver: Box<Expr>,
        /// The method and its arguments.
        call: Call,
    },
    /// A call of a closure.
    ClosureCall {
        /// The closure.
        closure: Box<Expr>,
        /// The index of the name of the method that runs it.
        name: u32,
        /// The line of the call.
        line: u16,
        /// Its arguments.
        args: Vec<Expr>,
    },
}

impl Expr {
    /// The constant `true` or `false`.
    pub fn bool(value: bool) -> Self {
        Self::Const(Const::Bool(value))
    }

    /// A constant of 32 bits.
    pub fn i32(value: i32) -> Self {
        Self::Const(Const::I32(value))
    }

    /// The local variable with this index.
    pub fn local(index: u32) -> Self {
        Self::Local(Local::Local(index))
    }

    /// A store of `value` in `place`.
    pub fn assign(place: Self, value: Self) -> Self {
        Self::Assign {
            place: Box::new(place),
            value: Box::new(value),
        }
    }
}

/// A constant: an index into its pool, or the value itself.
#[derive(Debug, Clone, Copy, PartialEq)]
pub enum Const {
    /// The index of a string.
    Str(u32),
    /// The index of a name.
    CName(u32),
    /// The index of a resource.
    ResRef(u32),
    /// The index of a TweakDB id.
    TweakDbId(u32),
    /// A value of an enum.
    EnumVariant {
        /// The index of the enum.
        enum_index: u32,
        /// The index of its value.
        value: u32,
    },
    /// Float.
    F32(f32),
    /// Double.
    F64(f64),
    /// Int8.
    I8(i8),
    /// Int16.
    I16(i16),
    /// Int32.
    I32(i32),
    /// Int64.
    I64(i64),
    /// Uint8.
    U8(u8),
    /// Uint16.
    U16(u16),
    /// Uint32.
    U32(u32),
    /// Uint64.
    U64(u64),
    /// Bool.
    Bool(bool),
}

/// What the receiver of a field access is.
#[derive(Debug, Clone, Copy, PartialEq, Eq)]
pub enum FieldForm {
    /// A struct.
    Struct,
    /// An object.
    Object,
    /// An object by weak reference.
    WeakObject,
}

/// A variable by where it is kept.
#[derive(Debug, Clone, Copy, PartialEq, Eq)]
pub enum Local {
    /// The object whose method this is.
    This,
    /// The local variable with this index.
    Local(u32),
    /// The parameter with this index.
    Param(u32),
    /// The field with this index: a variable that a closure has captured.
    ObjectField(u32),
}

/// A call of a built-in function.
#[derive(Debug, Clone, PartialEq)]
pub struct IntrinsicCall {
    /// Which function.
    pub intrinsic: Intrinsic,
    /// Whether some parameter is short-circuit. The assembler refuses that (14).
    pub short_circuit: bool,
    /// How many type arguments the call has. Other than [`Intrinsic::type_args`] is refused (14).
    pub type_args: usize,
    /// The index of the type argument, or of the name for NameOf.
    pub index: u32,
    /// Its arguments.
    pub args: Vec<Expr>,
}

impl IntrinsicCall {
    /// A call with the type arguments that the function needs.
    pub fn new(intrinsic: Intrinsic, index: u32, args: impl Into<Vec<Expr>>) -> Self {
        Self {
            intrinsic,
            short_circuit: false,
            type_args: intrinsic.type_args(),
            index,
            args: args.into(),
        }
    }
}

/// A call of a function or method.
#[derive(Debug, Clone, PartialEq)]
pub struct Call {
    /// What is called.
    pub callee: Callee,
    /// The arguments, at most one for each parameter.
    pub args: Vec<Expr>,
}

/// What a call says of the function that it calls.
#[derive(Debug, Clone, PartialEq, Eq, Default)]
pub struct Callee {
    /// The index of the function, used if it is called directly.
    pub function: u32,
    /// The index of its name, used if it is looked up by name.
    pub name: u32,
    /// The line of the call.
    pub line: u16,
    /// What decides between the two.
    pub flags: CallFlags,
    /// A mark for each parameter.
    pub params: Vec<Param>,
}

/// Flags of a function or of its call. With any of them it is called directly, else looked up by name.
#[derive(Debug, Clone, Copy, PartialEq, Eq, Default)]
pub struct CallFlags {
    /// The function is final.
    pub is_final: bool,
    /// The function is static.
    pub is_static: bool,
    /// The function is native.
    pub is_native: bool,
    /// The call asks for this very function.
    pub force_static: bool,
}

/// A parameter.
#[derive(Debug, Clone, Copy, PartialEq, Eq, Default)]
pub enum Param {
    /// Its argument is worked out before the call.
    #[default]
    Plain,
    /// Its argument is worked out only if the function asks for it.
    ShortCircuit,
}

/// A built-in function, by its published name and in the published order.
#[derive(Debug, Clone, Copy, PartialEq, Eq, Hash)]
#[allow(missing_docs, reason = "the names are those of the functions")]
pub enum Intrinsic {
    Equals,
    NotEquals,
    ArrayClear,
    ArraySize,
    ArrayResize,
    ArrayFindFirst,
    ArrayFindLast,
    ArrayContains,
    ArrayCount,
    ArrayPush,
    ArrayPop,
    ArrayInsert,
    ArrayRemove,
    ArrayGrow,
    ArrayErase,
    ArrayLast,
    ArraySort,
    ArraySortByPredicate,
    ToString,
    EnumInt,
    IntEnum,
    LongIntEnum,
    ToVariant,
    FromVariant,
    VariantIsDefined,
    VariantIsRef,
    VariantIsArray,
    VariantTypeName,
    AsRef,
    Deref,
    RefToWeakRef,
    WeakRefToRef,
    IsDefined,
    NameOf,
}

impl Intrinsic {
    /// All of them, in the order of their codes.
    pub const ALL: [Self; 34] = [
        Self::Equals,
        Self::NotEquals,
        Self::ArrayClear,
        Self::ArraySize,
        Self::ArrayResize,
        Self::ArrayFindFirst,
        Self::ArrayFindLast,
        Self::ArrayContains,
        Self::ArrayCount,
        Self::ArrayPush,
        Self::ArrayPop,
        Self::ArrayInsert,
        Self::ArrayRemove,
        Self::ArrayGrow,
        Self::ArrayErase,
        Self::ArrayLast,
        Self::ArraySort,
        Self::ArraySortByPredicate,
        Self::ToString,
        Self::EnumInt,
        Self::IntEnum,
        Self::LongIntEnum,
        Self::ToVariant,
        Self::FromVariant,
        Self::VariantIsDefined,
        Self::VariantIsRef,
        Self::VariantIsArray,
        Self::VariantTypeName,
        Self::AsRef,
        Self::Deref,
        Self::RefToWeakRef,
        Self::WeakRefToRef,
        Self::IsDefined,
        Self::NameOf,
    ];

    /// The function's code in a unit: 0 to 33.
    pub fn code(self) -> u8 {
        self as u8
    }

    /// How many type arguments it needs: none for the four queries of a Variant and for IsDefined, one for the others.
    pub fn type_args(self) -> usize {
        match self {
            Self::VariantIsDefined
            | Self::VariantIsRef
            | Self::VariantIsArray
            | Self::VariantTypeName
            | Self::IsDefined => 0,
            _ => 1,
        }
    }
}
