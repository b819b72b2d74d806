//! From a tree to a unit.

use std::error::Error;
use std::fmt;

use crate::kind::{expr, stmt};
use crate::tree::{
    Block, Call, CallFlags, Callee, Case, ConditionalBlock, Const, DefaultValue, Expr, FieldForm,
    IntrinsicCall, Local, Param, Script, Stmt,
};
use crate::unit::Unit;

/// How many nodes may stand one in another. A statement at the top is the first.
pub const MAX_DEPTH: usize = 200;

/// How many bytes a unit may have.
pub const MAX_BYTES: usize = 1_048_576;

/// Why a tree has no unit.
#[derive(Debug, Clone, Copy, PartialEq, Eq)]
#[non_exhaustive]
pub enum EncodeError {
    /// More than [`MAX_DEPTH`] nodes stand one in another.
    TooDeep,
    /// The unit would have more than [`MAX_BYTES`] bytes.
    TooLong,
    /// A function has more than 255 parameters.
    TooManyParameters {
        /// How many.
        count: usize,
    },
    /// A call has more arguments than the function has parameters.
    TooManyArguments {
        /// How many arguments.
        arguments: usize,
        /// How many parameters.
        parameters: usize,
    },
    /// A call of an intrinsic has more than 255 type arguments.
    TooManyTypeArguments {
        /// How many.
        count: usize,
    },
}

impl fmt::Display for EncodeError {
    fn fmt(&self, f: &mut fmt::Formatter<'_>) -> fmt::Result {
        match self {
            Self::TooDeep => write!(f, "more than {MAX_DEPTH} nodes stand one in another"),
            Self::TooLong => write!(f, "the unit has more than {MAX_BYTES} bytes"),
            Self::TooManyParameters { count } => {
                write!(f, "a function has {count} parameters; 255 are possible")
            }
            Self::TooManyArguments {
                arguments,
                parameters,
            } => write!(
                f,
                "a call has {arguments} arguments, and the function {parameters} parameters"
            ),
            Self::TooManyTypeArguments { count } => {
                write!(
                    f,
                    "an intrinsic has {count} type arguments; 255 are possible"
                )
            }
        }
    }
}

impl Error for EncodeError {}

type Encoded = Result<(), EncodeError>;

impl Script {
    /// The script's unit. Reading it is never refused: what a unit cannot hold is an error here.
    pub fn encode(&self) -> Result<Unit, EncodeError> {
        let mut encoder = Encoder {
            bytes: Vec::new(),
            depth: 0,
        };
        encoder.put(&[1])?;
        encoder.counted(|rest| {
            rest.mark(self.returns)?;
            rest.block(&self.block)
        })?;
        Ok(Unit::from(encoder.bytes))
    }
}

struct Encoder {
    bytes: Vec<u8>,
    /// How many nodes are open.
    depth: usize,
}

impl Encoder {
    /// All bytes go through here, so that a tree that is too long is left as soon as it shows.
    fn put(&mut self, bytes: &[u8]) -> Encoded {
        if bytes.len() > MAX_BYTES - self.bytes.len() {
            return Err(EncodeError::TooLong);
        }
        self.bytes.extend_from_slice(bytes);
        Ok(())
    }

    fn index(&mut self, index: u32) -> Encoded {
        self.put(&index.to_be_bytes())
    }

    fn mark(&mut self, mark: bool) -> Encoded {
        self.put(&[mark.into()])
    }

    /// A length and what it counts. The length is filled in when it is known, so that nothing is gone over twice.
    fn counted(&mut self, content: impl FnOnce(&mut Self) -> Encoded) -> Encoded {
        let at = self.bytes.len();
        self.put(&[0; 4])?;
        content(self)?;
        let length = self.bytes.len() - at - 4;
        let length = u32::try_from(length).map_err(|_| EncodeError::TooLong)?;
        self.bytes[at..at + 4].copy_from_slice(&length.to_be_bytes());
        Ok(())
    }

    /// A node. The depth is tested before anything of it is looked at, so that a tree of any depth is left in time.
    fn node(&mut self, kind: u8, rest: impl FnOnce(&mut Self) -> Encoded) -> Encoded {
        if self.depth == MAX_DEPTH {
            return Err(EncodeError::TooDeep);
        }
        self.depth += 1;
        self.counted(|node| {
            node.put(&[kind])?;
            rest(node)
        })?;
        self.depth -= 1;
        Ok(())
    }

    fn run<T>(&mut self, items: &[T], item: fn(&mut Self, &T) -> Encoded) -> Encoded {
        self.counted(|run| items.iter().try_for_each(|each| item(run, each)))
    }

    fn block(&mut self, block: &Block) -> Encoded {
        self.run(&block.stmts, Self::stmt)
    }

    fn block_if_any(&mut self, block: Option<&Block>) -> Encoded {
        block.map_or(Ok(()), |block| self.block(block))
    }

    fn exprs(&mut self, exprs: &[Expr]) -> Encoded {
        self.run(exprs, Self::expr)
    }

    fn branch(&mut self, branch: &ConditionalBlock) -> Encoded {
        self.expr(&branch.condition)?;
        self.block(&branch.block)
    }

    fn case(&mut self, case: &Case) -> Encoded {
        self.expr(&case.matcher)?;
        self.block(&case.block)
    }

    fn stmt(&mut self, statement: &Stmt) -> Encoded {
        self.node(stmt_kind(statement), |node| match statement {
            Stmt::Expr(expr) => node.expr(expr),
            Stmt::Block(block) => node.block(block),
            Stmt::While(branch) => node.branch(branch),
            Stmt::Branches { branches, default } => {
                node.run(branches, Self::branch)?;
                node.mark(default.is_some())?;
                node.block_if_any(default.as_ref())
            }
            Stmt::Switch {
                scrutinee_type,
                scrutinee,
                cases,
                default_index,
                default,
            } => {
                node.index(*scrutinee_type)?;
                node.expr(scrutinee)?;
                node.index(*default_index)?;
                node.mark(default.is_some())?;
                node.run(cases, Self::case)?;
                node.block_if_any(default.as_ref())
            }
            Stmt::InitArray {
                local,
                array_type,
                elements,
            } => {
                node.index(*local)?;
                node.index(*array_type)?;
                node.exprs(elements)
            }
            Stmt::InitDefault { local, default } => {
                node.index(*local)?;
                let (byte, index) = default_fields(*default);
                node.put(&[byte])?;
                node.index(index)
            }
            Stmt::Break | Stmt::Continue => Ok(()),
            Stmt::Return(value) => {
                node.mark(value.is_some())?;
                value.as_ref().map_or(Ok(()), |value| node.expr(value))
            }
        })
    }

    fn expr(&mut self, expression: &Expr) -> Encoded {
        self.node(expr_kind(expression), |node| match expression {
            Expr::Nop => Ok(()),
            Expr::Const(constant) => node.constant(constant),
            Expr::Null { weak } => node.mark(*weak),
            Expr::NewInstance { class } => node.index(*class),
            Expr::Construct { class, args } => {
                node.index(*class)?;
                node.exprs(args)
            }
            Expr::Assign { place, value } => {
                node.expr(place)?;
                node.expr(value)
            }
            Expr::Field {
                form,
                field,
                receiver,
            } => {
                node.put(&[field_form(*form)])?;
                node.index(*field)?;
                node.expr(receiver)
            }
            Expr::Index {
                dynamic,
                array_type,
                array,
                index,
            } => {
                node.mark(*dynamic)?;
                node.index(*array_type)?;
                node.expr(array)?;
                node.expr(index)
            }
            Expr::Conditional {
                condition,
                then,
                otherwise,
            } => {
                node.expr(condition)?;
                node.expr(then)?;
                node.expr(otherwise)
            }
            Expr::DynCast { class, weak, expr } => {
                node.index(*class)?;
                node.mark(*weak)?;
                node.expr(expr)
            }
            Expr::Local(local) => node.local(*local),
            Expr::Intrinsic(call) => node.intrinsic(call),
            Expr::FreeCall(call) | Expr::StaticCall(call) => node.call(call),
            Expr::InstanceCall {
                weak,
                receiver,
                call,
            } => {
                node.mark(*weak)?;
                node.expr(receiver)?;
                node.call(call)
            }
            Expr::ClosureCall {
                closure,
                name,
                line,
                args,
            } => {
                node.expr(closure)?;
                node.index(*name)?;
                node.put(&line.to_be_bytes())?;
                node.exprs(args)
            }
        })
    }

    /// The const byte and the payload: one or two indices, a mark, or the value's own bytes.
    fn constant(&mut self, constant: &Const) -> Encoded {
        self.put(&[const_byte(constant)])?;
        match *constant {
            Const::Str(index)
            | Const::CName(index)
            | Const::ResRef(index)
            | Const::TweakDbId(index) => self.index(index),
            Const::EnumVariant { enum_index, value } => {
                self.index(enum_index)?;
                self.index(value)
            }
            Const::F32(value) => self.put(&value.to_be_bytes()),
            Const::F64(value) => self.put(&value.to_be_bytes()),
            Const::I8(value) => self.put(&value.to_be_bytes()),
            Const::I16(value) => self.put(&value.to_be_bytes()),
            Const::I32(value) => self.put(&value.to_be_bytes()),
            Const::I64(value) => self.put(&value.to_be_bytes()),
            Const::U8(value) => self.put(&value.to_be_bytes()),
            Const::U16(value) => self.put(&value.to_be_bytes()),
            Const::U32(value) => self.put(&value.to_be_bytes()),
            Const::U64(value) => self.put(&value.to_be_bytes()),
            Const::Bool(value) => self.mark(value),
        }
    }

    fn local(&mut self, local: Local) -> Encoded {
        let (form, index) = match local {
            Local::This => (0, 0),
            Local::Local(index) => (1, index),
            Local::Param(index) => (2, index),
            Local::ObjectField(index) => (3, index),
        };
        self.put(&[form])?;
        self.index(index)
    }

    fn intrinsic(&mut self, call: &IntrinsicCall) -> Encoded {
        let types =
            u8::try_from(call.type_args).map_err(|_| EncodeError::TooManyTypeArguments {
                count: call.type_args,
            })?;
        self.put(&[call.intrinsic.code(), call.short_circuit.into(), types])?;
        self.index(call.index)?;
        self.exprs(&call.args)
    }

    fn call(&mut self, call: &Call) -> Encoded {
        let (arguments, parameters) = (call.args.len(), call.callee.params.len());
        if arguments > parameters {
            return Err(EncodeError::TooManyArguments {
                arguments,
                parameters,
            });
        }
        self.callee(&call.callee)?;
        self.exprs(&call.args)
    }

    fn callee(&mut self, callee: &Callee) -> Encoded {
        let count = callee.params.len();
        let params = u8::try_from(count).map_err(|_| EncodeError::TooManyParameters { count })?;
        self.index(callee.function)?;
        self.index(callee.name)?;
        self.put(&callee.line.to_be_bytes())?;
        self.put(&[flag_byte(callee.flags), params])?;
        callee
            .params
            .iter()
            .try_for_each(|&param| self.mark(param == Param::ShortCircuit))
    }
}

fn stmt_kind(statement: &Stmt) -> u8 {
    match statement {
        Stmt::Expr(_) => stmt::EXPR,
        Stmt::Block(_) => stmt::BLOCK,
        Stmt::While(_) => stmt::WHILE,
        Stmt::Branches { .. } => stmt::BRANCHES,
        Stmt::Switch { .. } => stmt::SWITCH,
        Stmt::InitArray { .. } => stmt::INIT_ARRAY,
        Stmt::InitDefault { .. } => stmt::INIT_DEFAULT,
        Stmt::Break => stmt::BREAK,
        Stmt::Continue => stmt::CONTINUE,
        Stmt::Return(_) => stmt::RETURN,
    }
}

fn expr_kind(expression: &Expr) -> u8 {
    match expression {
        Expr::Nop => expr::NOP,
        Expr::Const(_) => expr::CONST,
        Expr::Null { .. } => expr::NULL,
        Expr::NewInstance { .. } => expr::NEW_INSTANCE,
        Expr::Construct { .. } => expr::CONSTRUCT,
        Expr::Assign { .. } => expr::ASSIGN,
        Expr::Field { .. } => expr::FIELD,
        Expr::Index { .. } => expr::INDEX,
        Expr::Conditional { .. } => expr::CONDITIONAL,
        Expr::DynCast { .. } => expr::DYN_CAST,
        Expr::Local(_) => expr::LOCAL,
        Expr::Intrinsic(_) => expr::INTRINSIC,
        Expr::FreeCall(_) => expr::FREE_CALL,
        Expr::StaticCall(_) => expr::STATIC_CALL,
        Expr::InstanceCall { .. } => expr::INSTANCE_CALL,
        Expr::ClosureCall { .. } => expr::CLOSURE_CALL,
    }
}

fn const_byte(constant: &Const) -> u8 {
    match constant {
        Const::Str(_) => 0,
        Const::CName(_) => 1,
        Const::ResRef(_) => 2,
        Const::TweakDbId(_) => 3,
        Const::EnumVariant { .. } => 4,
        Const::F32(_) => 5,
        Const::F64(_) => 6,
        Const::I8(_) => 7,
        Const::I16(_) => 8,
        Const::I32(_) => 9,
        Const::I64(_) => 10,
        Const::U8(_) => 11,
        Const::U16(_) => 12,
        Const::U32(_) => 13,
        Const::U64(_) => 14,
        Const::Bool(_) => 15,
    }
}

/// The default byte and its index, 0 where none is used.
fn default_fields(default: DefaultValue) -> (u8, u32) {
    match default {
        DefaultValue::Variant => (0, 0),
        DefaultValue::Array(index) => (1, index),
        DefaultValue::Struct(index) => (2, index),
        DefaultValue::Aggregate => (3, 0),
        DefaultValue::Enum(index) => (4, index),
        DefaultValue::String(index) => (5, index),
        DefaultValue::CName(index) => (6, index),
        DefaultValue::ResRef(index) => (7, index),
        DefaultValue::TweakDbId(index) => (8, index),
        DefaultValue::F32 => (9, 0),
        DefaultValue::F64 => (10, 0),
        DefaultValue::I8 => (11, 0),
        DefaultValue::I16 => (12, 0),
        DefaultValue::I32 => (13, 0),
        DefaultValue::I64 => (14, 0),
        DefaultValue::U8 => (15, 0),
        DefaultValue::U16 => (16, 0),
        DefaultValue::U32 => (17, 0),
        DefaultValue::U64 => (18, 0),
        DefaultValue::Bool => (19, 0),
        DefaultValue::Ref => (20, 0),
        DefaultValue::WeakRef => (21, 0),
        DefaultValue::NoValue => (22, 0),
    }
}

fn field_form(form: FieldForm) -> u8 {
    match form {
        FieldForm::Struct => 0,
        FieldForm::Object => 1,
        FieldForm::WeakObject => 2,
    }
}

/// Bits from the lowest: final, static, native, ForceStatic.
fn flag_byte(flags: CallFlags) -> u8 {
    u8::from(flags.is_final)
        | u8::from(flags.is_static) << 1
        | u8::from(flags.is_native) << 2
        | u8::from(flags.force_static) << 3
}
