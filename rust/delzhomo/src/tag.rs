//! Instruction tags: their names, virtual sizes and the fields that a record with the tag uses.

use std::fmt;

/// The tag of an instruction: one of the 77 that the assembler emits, with the published names as constants.
#[derive(Clone, Copy, PartialEq, Eq, PartialOrd, Ord, Hash)]
pub struct Tag(u8);

/// What the `value` of a record stands for.
#[derive(Debug, Clone, Copy, PartialEq, Eq)]
pub enum ValueForm {
    /// The bits of an `i8`.
    I8,
    /// The bits of an `i16`.
    I16,
    /// The bits of an `i32`.
    I32,
    /// The bits of an `i64`.
    I64,
    /// A `u8`.
    U8,
    /// A `u16`.
    U16,
    /// A `u32`.
    U32,
    /// A `u64`.
    U64,
    /// The bits of an `f32`.
    F32,
    /// The bits of an `f64`.
    F64,
    /// The index of an enum in the high half, that of its value in the low half.
    Enum,
    /// The index of a string.
    String,
    /// The index of a name.
    Name,
    /// The index of a TweakDB id.
    TweakDbId,
    /// The index of a resource.
    Resource,
    /// The index of a type.
    Type,
    /// The index of a class.
    Class,
    /// The index of a field.
    Field,
    /// The index of a local variable.
    Local,
    /// The index of a parameter.
    Param,
    /// The index of a function.
    Function,
}

impl ValueForm {
    /// What an index is an index of; nothing for a number, which speaks for itself.
    pub fn noun(self) -> Option<&'static str> {
        match self {
            Self::Enum => Some("enum"),
            Self::String => Some("string"),
            Self::Name => Some("name"),
            Self::TweakDbId => Some("tweakdb"),
            Self::Resource => Some("resource"),
            Self::Type => Some("type"),
            Self::Class => Some("class"),
            Self::Field => Some("field"),
            Self::Local => Some("local"),
            Self::Param => Some("param"),
            Self::Function => Some("function"),
            _ => None,
        }
    }
}

/// The fields that a record uses, by the names that instructions have for them; the others are 0 in every record.
#[derive(Debug, Clone, Copy, PartialEq, Eq)]
pub struct Fields {
    /// `arg_count`, `size` or `is_weak`.
    pub small: Option<&'static str>,
    /// `target` (the only label), `exit` of an invoke, `false_label`, `first_case` or `next_case`.
    pub first: Option<&'static str>,
    /// `exit` of a Conditional, `body` of a SwitchLabel.
    pub second: Option<&'static str>,
    /// The line of a call.
    pub line: bool,
    /// The argument flags of a call.
    pub flags: bool,
    /// An index or a constant.
    pub value: Option<ValueForm>,
}

/// A row of the table: no name and size 0 where no such tag is emitted.
#[derive(Clone, Copy)]
struct Entry {
    name: &'static str,
    size: u8,
    fields: Fields,
}

// The seven forms of rows.

const fn plain() -> Fields {
    Fields {
        small: None,
        first: None,
        second: None,
        line: false,
        flags: false,
        value: None,
    }
}

const fn value(form: ValueForm) -> Fields {
    Fields {
        value: Some(form),
        ..plain()
    }
}

const fn label() -> Fields {
    Fields {
        first: Some("target"),
        ..plain()
    }
}

const fn switch() -> Fields {
    Fields {
        first: Some("first_case"),
        value: Some(ValueForm::Type),
        ..plain()
    }
}

const fn labels(first: &'static str, second: &'static str) -> Fields {
    Fields {
        first: Some(first),
        second: Some(second),
        ..plain()
    }
}

const fn small(name: &'static str, form: ValueForm) -> Fields {
    Fields {
        small: Some(name),
        value: Some(form),
        ..plain()
    }
}

const fn invoke(form: ValueForm) -> Fields {
    Fields {
        first: Some("exit"),
        line: true,
        flags: true,
        value: Some(form),
        ..plain()
    }
}

/// From one list both the constants and the table of 256 entries, so that they cannot part.
macro_rules! tags {
    ($($(#[doc = $doc:literal])+ $name:ident = $number:literal, $size:literal, $fields:expr;)+) => {
        // constants with the published names, which are those of a Rust enum
        #[allow(non_upper_case_globals)]
        impl Tag {
            $($(#[doc = $doc])+ pub const $name: Tag = Tag($number);)+
        }

        static TABLE: [Entry; 256] = {
            use ValueForm::*;
            let mut table = [Entry { name: "", size: 0, fields: plain() }; 256];
            $(table[$number] = Entry { name: stringify!($name), size: $size, fields: $fields };)+
            table
        };
    };
}

tags! {
    /// No operation.
    Nop = 0x00, 1, plain();
    /// Pushes a null reference onto the stack.
    Null = 0x01, 1, plain();
    /// Pushes the 32-bit integer `1` onto the stack.
    I32One = 0x02, 1, plain();
    /// Pushes the 32-bit integer `0` onto the stack.
    I32Zero = 0x03, 1, plain();
    /// Pushes an 8-bit integer constant onto the stack.
    I8Const = 0x04, 2, value(I8);
    /// Pushes a 16-bit integer constant onto the stack.
    I16Const = 0x05, 3, value(I16);
    /// Pushes a 32-bit integer constant onto the stack.
    I32Const = 0x06, 5, value(I32);
    /// Pushes a 64-bit integer constant onto the stack.
    I64Const = 0x07, 9, value(I64);
    /// Pushes an unsigned 8-bit integer constant onto the stack.
    U8Const = 0x08, 2, value(U8);
    /// Pushes an unsigned 16-bit integer constant onto the stack.
    U16Const = 0x09, 3, value(U16);
    /// Pushes an unsigned 32-bit integer constant onto the stack.
    U32Const = 0x0A, 5, value(U32);
    /// Pushes an unsigned 64-bit integer constant onto the stack.
    U64Const = 0x0B, 9, value(U64);
    /// Pushes a 32-bit floating point constant onto the stack.
    F32Const = 0x0C, 5, value(F32);
    /// Pushes a 64-bit floating point constant onto the stack.
    F64Const = 0x0D, 9, value(F64);
    /// Pushes a name (CName) constant onto the stack.
    CNameConst = 0x0E, 9, value(Name);
    /// Pushes an enumeration constant onto the stack.
    EnumConst = 0x0F, 17, value(Enum);
    /// Pushes a string constant onto the stack.
    StringConst = 0x10, 5, value(String);
    /// Pushes a TweakDB ID constant onto the stack.
    TweakDbIdConst = 0x11, 9, value(TweakDbId);
    /// Pushes a resource reference constant onto the stack.
    ResourceConst = 0x12, 9, value(Resource);
    /// Pushes the boolean value `true` onto the stack.
    TrueConst = 0x13, 1, plain();
    /// Pushes the boolean value `false` onto the stack.
    FalseConst = 0x14, 1, plain();
    /// Assigns a value to a local variable or field.
    Assign = 0x16, 1, plain();
    /// Pushes a reference to a local variable onto the stack.
    Local = 0x18, 9, value(Local);
    /// Pushes a reference to a parameter onto the stack.
    Param = 0x19, 9, value(Param);
    /// Accesses a field of an object.
    ObjectField = 0x1A, 9, value(Field);
    /// Initiates a switch statement.
    Switch = 0x1C, 11, switch();
    /// Defines a label within a switch statement.
    SwitchLabel = 0x1D, 5, labels("next_case", "body");
    /// Defines the default case of a switch statement.
    SwitchDefault = 0x1E, 1, plain();
    /// Unconditionally jumps to a target location.
    Jump = 0x1F, 3, label();
    /// Jumps to a target location if the condition is false.
    JumpIfFalse = 0x20, 3, label();
    /// Skips an instruction.
    Skip = 0x21, 3, label();
    /// Evaluates a conditional expression.
    Conditional = 0x22, 5, labels("false_label", "exit");
    /// Constructs a new object.
    Construct = 0x23, 10, small("arg_count", Class);
    /// Invokes a static method.
    InvokeStatic = 0x24, 15, invoke(Function);
    /// Invokes a virtual method.
    InvokeVirtual = 0x25, 15, invoke(Name);
    /// Marks the end of parameters for a method invocation.
    ParamEnd = 0x26, 1, plain();
    /// Returns from the current method.
    Return = 0x27, 1, plain();
    /// Accesses a field of a struct.
    StructField = 0x28, 9, value(Field);
    /// Pushes a context onto the stack.
    Context = 0x29, 3, label();
    /// Checks if two values are equal.
    Equals = 0x2A, 9, value(Type);
    /// Checks if two values are not equal.
    NotEquals = 0x2D, 9, value(Type);
    /// Allocates a new object.
    New = 0x30, 9, value(Class);
    /// Pushes a reference to `this` onto the stack.
    This = 0x32, 1, plain();
    /// Clears an array.
    ArrayClear = 0x34, 9, value(Type);
    /// Gets the size of an array.
    ArraySize = 0x35, 9, value(Type);
    /// Resizes an array.
    ArrayResize = 0x36, 9, value(Type);
    /// Finds the first occurrence of an element in an array.
    ArrayFindFirst = 0x37, 9, value(Type);
    /// Finds the last occurrence of an element in an array.
    ArrayFindLast = 0x39, 9, value(Type);
    /// Checks if an array contains a specific element.
    ArrayContains = 0x3B, 9, value(Type);
    /// Counts the occurrences of an element in an array.
    ArrayCount = 0x3D, 9, value(Type);
    /// Pushes an element to the end of an array.
    ArrayPush = 0x3F, 9, value(Type);
    /// Pops an element from the end of an array.
    ArrayPop = 0x40, 9, value(Type);
    /// Inserts an element into an array at a specific index.
    ArrayInsert = 0x41, 9, value(Type);
    /// Removes an element from an array.
    ArrayRemove = 0x42, 9, value(Type);
    /// Grows the capacity of an array.
    ArrayGrow = 0x44, 9, value(Type);
    /// Erases an element from an array at a specific index.
    ArrayErase = 0x45, 9, value(Type);
    /// Gets the last element of an array.
    ArrayLast = 0x47, 9, value(Type);
    /// Gets an element from an array at a specific index.
    ArrayElement = 0x48, 9, value(Type);
    /// Sorts an array.
    ArraySort = 0x49, 9, value(Type);
    /// Sorts an array using a predicate.
    ArraySortByPredicate = 0x4A, 9, value(Type);
    /// Gets an element from a static array at a specific index.
    StaticArrayElement = 0x55, 9, value(Type);
    /// Converts a reference to a boolean.
    RefToBool = 0x56, 1, plain();
    /// Converts an enum value to a 32-bit integer.
    EnumToI32 = 0x58, 10, small("size", Type);
    /// Converts a 32-bit integer to an enum value.
    I32ToEnum = 0x59, 10, small("size", Type);
    /// Performs a dynamic cast.
    DynamicCast = 0x5A, 10, small("is_weak", Class);
    /// Converts a value to a string.
    ToString = 0x5B, 9, value(Type);
    /// Converts a value to a variant.
    ToVariant = 0x5C, 9, value(Type);
    /// Extracts a value from a variant.
    FromVariant = 0x5D, 9, value(Type);
    /// Checks if a variant is defined.
    VariantIsDefined = 0x5E, 1, plain();
    /// Checks if a variant contains a reference.
    VariantIsRef = 0x5F, 1, plain();
    /// Checks if a variant contains an array.
    VariantIsArray = 0x60, 1, plain();
    /// Gets the type name of a variant.
    VariantTypeName = 0x61, 1, plain();
    /// Converts a weak reference to a strong reference.
    WeakRefToRef = 0x63, 1, plain();
    /// Converts a strong reference to a weak reference.
    RefToWeakRef = 0x64, 1, plain();
    /// Pushes a null weak reference onto the stack.
    WeakRefNull = 0x65, 1, plain();
    /// Gets a reference to a value.
    AsRef = 0x66, 9, value(Type);
    /// Dereferences a reference.
    Deref = 0x67, 9, value(Type);
}

impl Tag {
    /// The tag with this number, if the assembler emits it.
    pub fn new(number: u8) -> Option<Self> {
        let tag = Self(number);
        (tag.entry().size > 0).then_some(tag)
    }

    /// All tags, by their numbers.
    pub fn all() -> impl Iterator<Item = Self> {
        (0..=u8::MAX).filter_map(Self::new)
    }

    /// The tag's number.
    pub fn number(self) -> u8 {
        self.0
    }

    /// The instruction's name.
    pub fn name(self) -> &'static str {
        self.entry().name
    }

    /// The instruction's virtual size: what it adds to the start of the next one.
    pub fn size(self) -> u32 {
        self.entry().size.into()
    }

    /// The fields that a record with this tag uses.
    pub fn fields(self) -> Fields {
        self.entry().fields
    }

    fn entry(self) -> &'static Entry {
        &TABLE[usize::from(self.0)]
    }
}

impl fmt::Debug for Tag {
    fn fmt(&self, f: &mut fmt::Formatter<'_>) -> fmt::Result {
        write!(f, "Tag({:#04X} {})", self.0, self.name())
    }
}

impl fmt::Display for Tag {
    fn fmt(&self, f: &mut fmt::Formatter<'_>) -> fmt::Result {
        f.pad(self.name())
    }
}
