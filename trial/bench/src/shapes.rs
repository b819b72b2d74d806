//! Units of about a size, in the shapes that cost differently.

use delzhomo::tree::{
    Block, Call, Callee, Case, ConditionalBlock, Expr, Local, Param, Script, Stmt,
};
use delzhomo::{Unit, measure};
use oracle::generate::{Size, random_unit};
use oracle::random::Random;

/// Bytes of a unit before the first statement of its block.
const FRONT: usize = 10;

/// A name, and how to make a unit of at most so many bytes.
pub type Shape = (&'static str, fn(usize) -> Unit);

pub const SHAPES: [Shape; 14] = [
    ("flat block, Nop", |size| repeated(size, nop)),
    ("flat block, Assign", |size| repeated(size, assign)),
    ("deep nesting, blocks", |size| repeated(size, deep_blocks)),
    ("deep nesting, casts", |size| repeated(size, deep_casts)),
    ("loops", |size| repeated(size, in_loop)),
    ("switches of 8", |size| repeated(size, || switch(8, 8))),
    ("switches of 8, mid default", |size| {
        repeated(size, || switch(8, 4))
    }),
    ("wide switch", |size| wide(size, usize::MAX)),
    ("wide switch, mid default", |size| wide(size, 1)),
    ("branches of 4", |size| repeated(size, branches)),
    ("calls of 8 arguments", |size| repeated(size, || call(0))),
    ("calls, 3 of 8 short-circuit", |size| {
        repeated(size, || call(3))
    }),
    ("arrays of 20", |size| repeated(size, array)),
    ("mixed random", mixed),
];

fn script(stmts: Vec<Stmt>) -> Unit {
    let script = Script {
        returns: false,
        block: Block::new(stmts),
    };
    script.encode().expect("the shapes stay within the limits")
}

/// As many copies of a statement as fit.
fn repeated(size: usize, stmt: fn() -> Stmt) -> Unit {
    let length = script(vec![stmt()]).bytes().len() - FRONT;
    let count = (size - FRONT) / length;
    script((0..count.max(1)).map(|_| stmt()).collect())
}

fn nop() -> Stmt {
    Expr::Nop.into()
}

fn assign() -> Stmt {
    Expr::assign(Expr::local(7), Expr::i32(5)).into()
}

/// Blocks one in another, which emit nothing, around a Nop.
fn deep_blocks() -> Stmt {
    (0..195).fold(nop(), |inner, _| Stmt::Block(Block::new([inner])))
}

/// Expressions one in another, which emit a record each.
fn deep_casts() -> Stmt {
    let cast = |inner: Expr| Expr::DynCast {
        class: 3,
        weak: false,
        expr: Box::new(inner),
    };
    (0..195).fold(Expr::local(7), |inner, _| cast(inner)).into()
}

fn in_loop() -> Stmt {
    let body = [assign(), assign(), Stmt::Continue, assign(), Stmt::Break];
    Stmt::While(ConditionalBlock::new(Expr::local(1), body))
}

/// So many cases, with the default in place `default_index`.
fn switch(cases: usize, default_index: usize) -> Stmt {
    let case = |number: usize| Case::new(Expr::i32(number as i32), [assign()]);
    Stmt::Switch {
        scrutinee_type: 2,
        scrutinee: Expr::local(1),
        cases: (0..cases).map(case).collect(),
        default_index: default_index.min(cases) as u32,
        default: Some(Block::new([assign()])),
    }
}

/// Switches of 64 KB, since in a wider one with a mid default the bodies are too distant. The last is as wide as fits.
fn wide(size: usize, default_index: usize) -> Unit {
    let of_one = |cases| script(vec![switch(cases, default_index)]).bytes().len() - FRONT;
    let (empty, case) = (of_one(0), of_one(1) - of_one(0));
    let mut left = size - FRONT;
    let mut stmts = Vec::new();
    while left >= empty + case {
        let cases = (left.min(65_000) - empty) / case;
        stmts.push(switch(cases, default_index));
        left -= empty + cases * case;
    }
    script(stmts)
}

fn branches() -> Stmt {
    let branch = |_| ConditionalBlock::new(Expr::local(1), [assign(), assign()]);
    Stmt::Branches {
        branches: (0..4).map(branch).collect(),
        default: Some(Block::new([assign()])),
    }
}

/// A call of a function with so many short-circuit parameters before the plain ones.
fn call(short_circuit: usize) -> Stmt {
    let mut params = vec![Param::Plain; 8];
    params[..short_circuit].fill(Param::ShortCircuit);
    let callee = Callee {
        function: 5,
        name: 6,
        line: 7,
        params,
        ..Callee::default()
    };
    let args = vec![Expr::Local(Local::Param(1)); 8];
    Expr::FreeCall(Call { callee, args }).into()
}

fn array() -> Stmt {
    Stmt::InitArray {
        local: 1,
        array_type: 2,
        elements: vec![Expr::i32(5); 20],
    }
}

/// Statements of random units that lower, one behind the other.
fn mixed(size: usize) -> Unit {
    let mut random = Random::new(14);
    let mut block = Vec::new();
    loop {
        let unit = random_unit(&mut random, Size::Small);
        if measure(&unit).is_err() || unit[5] != 0 {
            continue;
        }
        if block.len() + unit.len() > size {
            return unit_of(&block);
        }
        block.extend_from_slice(&unit[FRONT..]);
    }
}

fn unit_of(block: &[u8]) -> Unit {
    let length = |count: usize| u32::try_from(count).expect("a unit is short").to_be_bytes();
    let mut bytes = vec![1];
    bytes.extend_from_slice(&length(block.len() + 5));
    bytes.push(0);
    bytes.extend_from_slice(&length(block.len()));
    bytes.extend_from_slice(block);
    Unit::from_bytes(bytes)
}
