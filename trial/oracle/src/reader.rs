//! Reads a unit as document 01 describes it, and builds the tree of `ir.rs`.

use std::borrow::Cow;

use redscript_compiler_frontend::ast::Span;
use redscript_compiler_frontend::{MonoType, RefType, Shape, ir};

use crate::program::{Callee, Definitions, Program, Storage, plain_type, type_};

const MAX_UNIT: usize = 1_048_576;
const FRONT: usize = 6;
const MAX_DEPTH: u32 = 200;

const EQUALS: u8 = 0;
const VARIANT_IS_DEFINED: u8 = 24;

/// Number, place and extra.
#[derive(Debug, Clone, Copy, PartialEq, Eq)]
pub struct Refusal {
    pub number: u32,
    pub place: usize,
    pub extra: usize,
}

impl Refusal {
    fn new(number: u32, place: usize) -> Self {
        Self {
            number,
            place,
            extra: 0,
        }
    }
}

type Read<T> = Result<T, Refusal>;
type Expr = ir::Expr<'static>;
type Stmt = ir::Stmt<'static>;
type Block = ir::Block<'static>;

/// How a reader treats a call with more arguments than parameters.
#[derive(Debug, Clone, Copy, PartialEq, Eq)]
pub enum ExtraArguments {
    Refuse,
    /// Hand them on, to see what the assembler does.
    Pass,
}

/// Where the tree holds something that the unit does not: an expression that the assembler
/// refuses, so that its walk ends there.
#[derive(Debug, Clone, Copy, PartialEq, Eq)]
pub enum Barrier {
    /// In place of the node at this place.
    Before(usize),
    /// Behind the node at this place.
    After(usize),
}

/// The span of the barrier; no node stands there.
pub const BARRIER: Span = Span { start: u32::MAX };

pub fn read(
    unit: &[u8],
    extra_arguments: ExtraArguments,
    barrier: Option<Barrier>,
) -> Read<Program> {
    let front_fits = (FRONT..=MAX_UNIT).contains(&unit.len())
        && unit[0] == 1
        && unit[1..5] == ((unit.len() - 5) as u32).to_be_bytes()
        && unit[5] <= 1;
    if !front_fits {
        return Err(Refusal::new(1, 0));
    }
    let mut reader = Reader {
        unit,
        extra_arguments,
        barrier,
        nodes: vec![],
        definitions: Definitions::default(),
    };
    let mut part = Part {
        at: FRONT,
        end: unit.len(),
        depth: 1,
    };
    let block = reader.block(&mut part)?;
    if part.at != part.end {
        return Err(Refusal::new(3, FRONT));
    }
    let Reader {
        nodes, definitions, ..
    } = reader;
    Ok(Program::new(block, nodes, definitions, unit[5] == 1))
}

/// A stretch of the unit that is being read: a node's rest or a run's items.
struct Part {
    at: usize,
    end: usize,
    /// The depth of nodes in it.
    depth: u32,
}

/// The rest of a node after its kind.
struct Node {
    place: usize,
    part: Part,
}

impl Node {
    fn span(&self) -> Span {
        Span {
            start: self.place as u32,
        }
    }

    fn refuse<T>(&self, number: u32) -> Read<T> {
        Err(Refusal::new(number, self.place))
    }
}

struct Reader<'a> {
    unit: &'a [u8],
    extra_arguments: ExtraArguments,
    barrier: Option<Barrier>,
    nodes: Vec<usize>,
    definitions: Definitions,
}

impl Reader<'_> {
    /// A length that fits into `part` together with what it counts.
    fn length(&self, part: &mut Part, depth: u32) -> Option<Part> {
        let counted = part.at + 4;
        if counted > part.end {
            return None;
        }
        let length = u32::from_be_bytes(self.unit[part.at..counted].try_into().ok()?) as usize;
        if length > part.end - counted {
            return None;
        }
        part.at = counted + length;
        Some(Part {
            at: counted,
            end: part.at,
            depth,
        })
    }

    fn run(&self, part: &mut Part) -> Read<Part> {
        let place = part.at;
        self.length(part, part.depth).ok_or(Refusal::new(3, place))
    }

    fn items<T>(
        &mut self,
        part: &mut Part,
        mut item: impl FnMut(&mut Self, &mut Part) -> Read<T>,
    ) -> Read<Vec<T>> {
        let mut run = self.run(part)?;
        let mut items = vec![];
        while run.at < run.end {
            items.push(item(self, &mut run)?);
        }
        Ok(items)
    }

    fn block(&mut self, part: &mut Part) -> Read<Block> {
        Ok(Block::new(self.items(part, Self::stmt)?))
    }

    fn exprs(&mut self, part: &mut Part) -> Read<Box<[Expr]>> {
        Ok(self.items(part, Self::expr)?.into())
    }

    /// The front of a node: its length, and its kind.
    fn node(&mut self, part: &mut Part) -> Read<(u8, Node)> {
        let place = part.at;
        self.nodes.push(place);
        if part.depth > MAX_DEPTH {
            return Err(Refusal::new(4, place));
        }
        let mut rest = self
            .length(part, part.depth + 1)
            .filter(|rest| rest.at < rest.end)
            .ok_or(Refusal::new(3, place))?;
        let kind = self.unit[rest.at];
        rest.at += 1;
        Ok((kind, Node { place, part: rest }))
    }

    fn end(&self, node: &Node) -> Read<()> {
        match node.part.at == node.part.end {
            true => Ok(()),
            false => node.refuse(3),
        }
    }

    fn bytes<const N: usize>(&self, node: &mut Node) -> Read<[u8; N]> {
        let Part { at, end, .. } = node.part;
        match self.unit[at..end].first_chunk() {
            Some(bytes) => {
                node.part.at += N;
                Ok(*bytes)
            }
            None => node.refuse(3),
        }
    }

    fn byte(&self, node: &mut Node) -> Read<u8> {
        Ok(u8::from_be_bytes(self.bytes(node)?))
    }

    fn line(&self, node: &mut Node) -> Read<u16> {
        Ok(u16::from_be_bytes(self.bytes(node)?))
    }

    fn index(&self, node: &mut Node) -> Read<u32> {
        Ok(u32::from_be_bytes(self.bytes(node)?))
    }

    /// A byte whose listed values are 0 to `last`.
    fn listed(&self, node: &mut Node, last: u8) -> Read<u8> {
        let byte = self.byte(node)?;
        match byte <= last {
            true => Ok(byte),
            false => node.refuse(2),
        }
    }

    fn mark(&self, node: &mut Node) -> Read<bool> {
        Ok(self.listed(node, 1)? == 1)
    }

    fn stmt(&mut self, holder: &mut Part) -> Read<Stmt> {
        let (kind, mut node) = self.node(holder)?;
        let span = node.span();
        let part = &mut node.part;
        let stmt = match kind {
            1 => Stmt::Expr(self.boxed(part)?),
            2 => Stmt::Block(self.block(part)?, span),
            3 => Stmt::While(self.conditional_block(part)?, span),
            4 => self.branches(&mut node)?,
            5 => self.switch(&mut node)?,
            6 => self.init_array(&mut node)?,
            7 => self.init_default(&mut node)?,
            8 => Stmt::Break(span),
            9 => Stmt::Continue(span),
            10 => Stmt::Return(self.optional_expr(&mut node)?, span),
            _ => return node.refuse(2),
        };
        self.end(&node)?;
        Ok(self.barred_stmt(stmt, node.place))
    }

    /// The statement, or the barrier, or both.
    fn barred_stmt(&mut self, stmt: Stmt, place: usize) -> Stmt {
        match self.barrier {
            Some(Barrier::Before(at)) if at == place => self.barrier_expr().into(),
            Some(Barrier::After(at)) if at == place => {
                let barrier = self.barrier_expr().into();
                Stmt::Block(Block::new(vec![stmt, barrier]), BARRIER)
            }
            _ => stmt,
        }
    }

    fn conditional_block(&mut self, part: &mut Part) -> Read<ir::ConditionalBlock<'static>> {
        let condition = self.expr(part)?;
        Ok(ir::ConditionalBlock::new(condition, self.block(part)?))
    }

    fn case(&mut self, part: &mut Part) -> Read<ir::Case<'static>> {
        let matcher = self.expr(part)?;
        Ok(ir::Case::new(matcher, self.block(part)?))
    }

    fn branches(&mut self, node: &mut Node) -> Read<Stmt> {
        let branches = self.items(&mut node.part, Self::conditional_block)?;
        let has_default = self.mark(node)?;
        Ok(Stmt::Branches {
            branches: branches.into(),
            default: self.default_block(node, has_default)?,
            span: node.span(),
        })
    }

    fn switch(&mut self, node: &mut Node) -> Read<Stmt> {
        let scrutinee_type = plain_type(self.index(node)?);
        let scrutinee = self.boxed(&mut node.part)?;
        let default_index = self.index(node)?;
        let has_default = self.mark(node)?;
        Ok(Stmt::Switch {
            scrutinee,
            scrutinee_type: scrutinee_type.into(),
            branches: self.items(&mut node.part, Self::case)?.into(),
            default_index: default_index as usize,
            default: self.default_block(node, has_default)?,
            span: node.span(),
        })
    }

    fn default_block(&mut self, node: &mut Node, is_present: bool) -> Read<Option<Block>> {
        is_present.then(|| self.block(&mut node.part)).transpose()
    }

    fn init_array(&mut self, node: &mut Node) -> Read<Stmt> {
        let local = self.index(node)?;
        let array_type = self.index(node)?;
        Ok(Stmt::InitArray {
            local: self.definitions.local(Storage::Variable, local),
            source_binding: None,
            elements: self.exprs(&mut node.part)?,
            element_type: plain_type(array_type).into(),
            span: node.span(),
        })
    }

    fn init_default(&mut self, node: &mut Node) -> Read<Stmt> {
        let local = self.index(node)?;
        let default = self.listed(node, DEFAULTS.len() as u8 - 1)?;
        let index = self.index(node)?;
        Ok(Stmt::InitDefault {
            local: self.definitions.local(Storage::Variable, local),
            source_binding: None,
            typ: type_(DEFAULTS[usize::from(default)], index).into(),
            span: node.span(),
        })
    }

    fn optional_expr(&mut self, node: &mut Node) -> Read<Option<Box<Expr>>> {
        let is_present = self.mark(node)?;
        is_present.then(|| self.boxed(&mut node.part)).transpose()
    }

    fn boxed(&mut self, part: &mut Part) -> Read<Box<Expr>> {
        self.expr(part).map(Box::new)
    }

    fn expr(&mut self, holder: &mut Part) -> Read<Expr> {
        let (kind, mut node) = self.node(holder)?;
        let span = node.span();
        let expr = match kind {
            1 => Expr::Nop(span),
            2 => Expr::Const(self.constant(&mut node)?, span),
            3 => Expr::Null {
                is_weak: self.mark(&mut node)?,
                span,
            },
            4 => Expr::NewInstance {
                class_type: plain_type(self.index(&mut node)?).into(),
                span,
            },
            5 => self.construct(&mut node)?,
            6 => self.assign(&mut node)?,
            7 => self.field(&mut node)?,
            8 => self.element(&mut node)?,
            9 => self.conditional(&mut node)?,
            10 => self.dyn_cast(&mut node)?,
            11 => self.local(&mut node)?,
            12 => self.intrinsic_call(&mut node)?,
            13 => self.free_call(&mut node)?,
            14 => self.static_call(&mut node)?,
            15 => self.instance_call(&mut node)?,
            16 => self.closure_call(&mut node)?,
            _ => return node.refuse(2),
        };
        self.end(&node)?;
        Ok(self.barred_expr(expr, node.place))
    }

    /// The expression, or the barrier, or both.
    fn barred_expr(&mut self, expr: Expr, place: usize) -> Expr {
        match self.barrier {
            Some(Barrier::Before(at)) if at == place => self.barrier_expr(),
            Some(Barrier::After(at)) if at == place => {
                let span = expr.span();
                let args = [expr, self.barrier_expr()];
                self.untyped_intrinsic(VARIANT_IS_DEFINED, args.into(), span)
            }
            _ => expr,
        }
    }

    /// An intrinsic without the type argument that it needs.
    fn barrier_expr(&mut self) -> Expr {
        self.untyped_intrinsic(EQUALS, Box::default(), BARRIER)
    }

    fn untyped_intrinsic(&mut self, code: u8, args: Box<[Expr]>, span: Span) -> Expr {
        let call = ir::Call::FreeFunction {
            function: self.definitions.intrinsic(code, false),
            type_args: Box::default(),
            args,
        };
        Expr::call(call, span)
    }

    fn constant(&mut self, node: &mut Node) -> Read<ir::Const<'static>> {
        Ok(match self.listed(node, 15)? {
            0 => ir::Const::Str(self.name(node)?),
            1 => ir::Const::CName(self.name(node)?),
            2 => ir::Const::ResRef(self.name(node)?),
            3 => ir::Const::TweakDbId(self.name(node)?),
            4 => {
                let enum_ = self.index(node)?;
                let value = self.index(node)?;
                ir::Const::EnumVariant(self.definitions.enum_value(enum_, value))
            }
            5 => ir::Const::F32(f32::from_be_bytes(self.bytes(node)?)),
            6 => ir::Const::F64(f64::from_be_bytes(self.bytes(node)?)),
            7 => ir::Const::I8(i8::from_be_bytes(self.bytes(node)?)),
            8 => ir::Const::I16(i16::from_be_bytes(self.bytes(node)?)),
            9 => ir::Const::I32(i32::from_be_bytes(self.bytes(node)?)),
            10 => ir::Const::I64(i64::from_be_bytes(self.bytes(node)?)),
            11 => ir::Const::U8(u8::from_be_bytes(self.bytes(node)?)),
            12 => ir::Const::U16(u16::from_be_bytes(self.bytes(node)?)),
            13 => ir::Const::U32(u32::from_be_bytes(self.bytes(node)?)),
            14 => ir::Const::U64(u64::from_be_bytes(self.bytes(node)?)),
            _ => ir::Const::Bool(self.mark(node)?),
        })
    }

    /// The name that stands for an index of a pool.
    fn name(&self, node: &mut Node) -> Read<Cow<'static, str>> {
        Ok(self.index(node)?.to_string().into())
    }

    fn construct(&mut self, node: &mut Node) -> Read<Expr> {
        let class = self.index(node)?;
        Ok(Expr::Construct {
            struct_type: plain_type(class).into(),
            args: self.exprs(&mut node.part)?,
            span: node.span(),
        })
    }

    fn assign(&mut self, node: &mut Node) -> Read<Expr> {
        Ok(Expr::Assign {
            place: self.boxed(&mut node.part)?,
            expr: self.boxed(&mut node.part)?,
            typ: plain_type(0).into(),
            span: node.span(),
        })
    }

    fn field(&mut self, node: &mut Node) -> Read<Expr> {
        let (shape, receiver_ref) = match self.listed(node, 2)? {
            0 => (Shape::Struct, None),
            1 => (Shape::Class, Some(RefType::Strong)),
            _ => (Shape::Class, Some(RefType::Weak)),
        };
        let field = self.index(node)?;
        let receiver_type = type_(shape, 0);
        Ok(Expr::Field {
            receiver: self.boxed(&mut node.part)?,
            receiver_type: receiver_type.into(),
            receiver_ref,
            field: self.definitions.field(receiver_type.id(), field),
            span: node.span(),
        })
    }

    fn element(&mut self, node: &mut Node) -> Read<Expr> {
        let shape = match self.mark(node)? {
            true => Shape::Array,
            false => Shape::Other,
        };
        let array_type = type_(shape, self.index(node)?);
        Ok(Expr::Index {
            array: self.boxed(&mut node.part)?,
            array_type: array_type.into(),
            index: self.boxed(&mut node.part)?,
            span: node.span(),
        })
    }

    fn conditional(&mut self, node: &mut Node) -> Read<Expr> {
        Ok(Expr::Conditional {
            condition: self.boxed(&mut node.part)?,
            then: self.boxed(&mut node.part)?,
            else_: self.boxed(&mut node.part)?,
            span: node.span(),
        })
    }

    fn dyn_cast(&mut self, node: &mut Node) -> Read<Expr> {
        let class = self.index(node)?;
        let shape = match self.mark(node)? {
            true => Shape::WeakRef,
            false => Shape::Ref,
        };
        Ok(Expr::DynCast {
            expr: self.boxed(&mut node.part)?,
            expr_type: type_(shape, 0).into(),
            target_type: plain_type(class).into(),
            span: node.span(),
        })
    }

    fn local(&mut self, node: &mut Node) -> Read<Expr> {
        let form = self.listed(node, 3)?;
        let index = self.index(node)?;
        let span = node.span();
        let definitions = &mut self.definitions;
        Ok(match form {
            0 => Expr::Local(ir::Local::This, span),
            1 => Expr::Local(definitions.local(Storage::Variable, index), span),
            2 => Expr::Local(definitions.local(Storage::Param, index), span),
            _ => Expr::Capture(definitions.local(Storage::Capture, index), span),
        })
    }

    fn intrinsic_call(&mut self, node: &mut Node) -> Read<Expr> {
        let code = self.listed(node, 33)?;
        let is_short_circuit = self.mark(node)?;
        let type_count = self.byte(node)?;
        let typ = plain_type(self.index(node)?);
        let call = ir::Call::FreeFunction {
            function: self.definitions.intrinsic(code, is_short_circuit),
            type_args: (0..type_count).map(|_| typ.into()).collect(),
            args: self.exprs(&mut node.part)?,
        };
        Ok(Expr::call(call, node.span()))
    }

    fn free_call(&mut self, node: &mut Node) -> Read<Expr> {
        let (callee, args) = self.callee_and_args(node)?;
        let call = ir::Call::FreeFunction {
            function: self.definitions.free_function(&callee),
            type_args: Box::default(),
            args,
        };
        Ok(Expr::call(call, node.span()))
    }

    fn static_call(&mut self, node: &mut Node) -> Read<Expr> {
        let (callee, args) = self.callee_and_args(node)?;
        let method = self.definitions.static_method(callee);
        let call = ir::Call::Static {
            parent_id: method.parent(),
            parent_type_args: Box::default(),
            method,
            type_args: Box::default(),
            args,
        };
        Ok(Expr::call(call, node.span()))
    }

    fn instance_call(&mut self, node: &mut Node) -> Read<Expr> {
        let receiver_ref = match self.mark(node)? {
            true => RefType::Weak,
            false => RefType::Strong,
        };
        let receiver = self.boxed(&mut node.part)?;
        let (callee, args) = self.callee_and_args(node)?;
        let method = self.definitions.method(&callee);
        let call = ir::Call::Instance {
            receiver,
            receiver_type: MonoType::nullary(method.parent()).into(),
            receiver_ref: Some(receiver_ref),
            method,
            type_args: Box::default(),
            args,
            mode: callee.mode(),
        };
        Ok(Expr::call(call, node.span()))
    }

    /// The assembler asks for the line of the closure, not of the call.
    fn closure_call(&mut self, node: &mut Node) -> Read<Expr> {
        let closure = self.boxed(&mut node.part)?;
        let name = self.index(node)?;
        let line = self.line(node)?;
        self.definitions.line(closure.span().start, line);
        let call = ir::Call::Closure {
            closure,
            closure_type: MonoType::nullary(self.definitions.closure(name)).into(),
            args: self.exprs(&mut node.part)?,
        };
        Ok(Expr::call(call, node.span()))
    }

    /// All that follows in a call of a function, up to the node's end.
    fn callee_and_args(&mut self, node: &mut Node) -> Read<(Callee, Box<[Expr]>)> {
        let function = self.index(node)?;
        let name = self.index(node)?;
        let line = self.line(node)?;
        let flags = self.listed(node, 15)?;
        let param_count = self.byte(node)?;
        let params = (0..param_count)
            .map(|_| self.mark(node))
            .collect::<Read<Vec<_>>>()?;
        self.definitions.line(node.span().start, line);
        let args = self.exprs(&mut node.part)?;
        self.end(node)?;
        if args.len() > params.len() && self.extra_arguments == ExtraArguments::Refuse {
            return node.refuse(5);
        }
        let callee = Callee {
            function,
            name,
            flags,
            params,
        };
        Ok((callee, args))
    }
}

/// The shape of the type whose default is emitted, by default byte.
const DEFAULTS: [Shape; 23] = [
    Shape::Variant,
    Shape::Array,
    Shape::Struct,
    Shape::Class,
    Shape::Enum,
    Shape::String,
    Shape::CName,
    Shape::ResRef,
    Shape::TweakDbId,
    Shape::Float,
    Shape::Double,
    Shape::Int8,
    Shape::Int16,
    Shape::Int32,
    Shape::Int64,
    Shape::Uint8,
    Shape::Uint16,
    Shape::Uint32,
    Shape::Uint64,
    Shape::Bool,
    Shape::Ref,
    Shape::WeakRef,
    Shape::Other,
];
