//! Kinds of nodes: their numbers, names and parts.

use std::fmt;

/// Numbers of the statement kinds.
pub(crate) mod stmt {
    pub const EXPR: u8 = 1;
    pub const BLOCK: u8 = 2;
    pub const WHILE: u8 = 3;
    pub const BRANCHES: u8 = 4;
    pub const SWITCH: u8 = 5;
    pub const INIT_ARRAY: u8 = 6;
    pub const INIT_DEFAULT: u8 = 7;
    pub const BREAK: u8 = 8;
    pub const CONTINUE: u8 = 9;
    pub const RETURN: u8 = 10;
}

/// Numbers of the expression kinds.
pub(crate) mod expr {
    pub const NOP: u8 = 1;
    pub const CONST: u8 = 2;
    pub const NULL: u8 = 3;
    pub const NEW_INSTANCE: u8 = 4;
    pub const CONSTRUCT: u8 = 5;
    pub const ASSIGN: u8 = 6;
    pub const FIELD: u8 = 7;
    pub const INDEX: u8 = 8;
    pub const CONDITIONAL: u8 = 9;
    pub const DYN_CAST: u8 = 10;
    pub const LOCAL: u8 = 11;
    pub const INTRINSIC: u8 = 12;
    pub const FREE_CALL: u8 = 13;
    pub const STATIC_CALL: u8 = 14;
    pub const INSTANCE_CALL: u8 = 15;
    pub const CLOSURE_CALL: u8 = 16;
}

const STMT_NAMES: [&str; 11] = [
    "unknown",
    "Expr",
    "Block",
    "While",
    "Branches",
    "Switch",
    "InitArray",
    "InitDefault",
    "Break",
    "Continue",
    "Return",
];

const EXPR_NAMES: [&str; 17] = [
    "unknown",
    "Nop",
    "Const",
    "Null",
    "NewInstance",
    "Construct",
    "Assign",
    "Field",
    "Index",
    "Conditional",
    "DynCast",
    "Local",
    "Intrinsic",
    "FreeCall",
    "StaticCall",
    "InstanceCall",
    "ClosureCall",
];

/// The kind of a node by its number. Statements and expressions are two lists.
#[derive(Debug, Clone, Copy, PartialEq, Eq, Hash)]
pub enum Kind {
    /// A statement with this kind byte.
    Stmt(u8),
    /// An expression with this kind byte.
    Expr(u8),
}

impl Kind {
    /// The kind's name, `unknown` if there is no such kind.
    pub fn name(self) -> &'static str {
        let (names, number): (&[&'static str], u8) = match self {
            Self::Stmt(number) => (&STMT_NAMES, number),
            Self::Expr(number) => (&EXPR_NAMES, number),
        };
        names.get(usize::from(number)).copied().unwrap_or(names[0])
    }

    /// The parts that stand after the kind byte, as far as they are needed to find the children: nothing is said of fields that
    /// no child follows, and nothing of an unknown kind.
    pub(crate) fn parts(self) -> &'static [Part] {
        match self {
            Self::Stmt(number) => stmt_parts(number),
            Self::Expr(number) => expr_parts(number),
        }
    }
}

impl fmt::Display for Kind {
    fn fmt(&self, f: &mut fmt::Formatter<'_>) -> fmt::Result {
        f.pad(self.name())
    }
}

/// A part of a node.
#[derive(Clone, Copy)]
pub(crate) enum Part {
    /// So many bytes of fields.
    Bytes(usize),
    /// One byte that says whether the last part of the node is there.
    Mark,
    /// A count byte and as many marks.
    Params,
    /// An expression.
    Expr,
    /// An expression, if the mark is 1.
    ExprIfMarked,
    /// A run of expressions.
    Exprs,
    /// A run of an expression and a block each.
    Arms,
    /// A block.
    Block,
    /// A block, if the mark is 1.
    BlockIfMarked,
}

fn stmt_parts(number: u8) -> &'static [Part] {
    use Part::*;
    match number {
        stmt::EXPR => &[Expr],
        stmt::BLOCK => &[Block],
        stmt::WHILE => &[Expr, Block],
        stmt::BRANCHES => &[Arms, Mark, BlockIfMarked],
        stmt::SWITCH => &[Bytes(4), Expr, Bytes(4), Mark, Arms, BlockIfMarked],
        stmt::INIT_ARRAY => &[Bytes(8), Exprs],
        stmt::RETURN => &[Mark, ExprIfMarked],
        _ => &[],
    }
}

fn expr_parts(number: u8) -> &'static [Part] {
    use Part::*;
    match number {
        expr::CONSTRUCT => &[Bytes(4), Exprs],
        expr::ASSIGN => &[Expr, Expr],
        expr::FIELD => &[Bytes(5), Expr],
        expr::INDEX => &[Bytes(5), Expr, Expr],
        expr::CONDITIONAL => &[Expr, Expr, Expr],
        expr::DYN_CAST => &[Bytes(5), Expr],
        expr::INTRINSIC => &[Bytes(7), Exprs],
        expr::FREE_CALL | expr::STATIC_CALL => &[Bytes(11), Params, Exprs],
        expr::INSTANCE_CALL => &[Bytes(1), Expr, Bytes(11), Params, Exprs],
        expr::CLOSURE_CALL => &[Expr, Bytes(6), Exprs],
        _ => &[],
    }
}
