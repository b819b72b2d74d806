//! What several tests share: files of the repository, recorded answers, a tree with everything in it, and a strict reader.

#![allow(dead_code, reason = "each test uses a part of it")]

use std::fs;
use std::path::PathBuf;

use delzhomo::tree::*;
use delzhomo::{Refusal, Unit};

/// A file of the repository.
pub fn repository(path: &str) -> PathBuf {
    PathBuf::from(env!("CARGO_MANIFEST_DIR"))
        .join("../..")
        .join(path)
}

pub fn text_of(path: &str) -> String {
    fs::read_to_string(repository(path)).unwrap_or_else(|error| panic!("{path}: {error}"))
}

pub fn refusal(number: usize, place: usize, extra: usize) -> Refusal {
    Refusal {
        number,
        place,
        extra,
    }
}

pub fn unit(stmts: impl Into<Vec<Stmt>>) -> Unit {
    script(stmts).encode().unwrap()
}

pub fn while_false() -> Unit {
    Unit::from_hex(WHILE_FALSE).unwrap()
}

pub fn nops_in_a_loop(count: usize) -> Unit {
    let nops = vec![Stmt::Expr(Expr::Nop); count];
    unit([Stmt::While(ConditionalBlock::new(Expr::bool(false), nops))])
}

/// The bytes of hexadecimal digits, white space left out.
pub fn hex(digits: &str) -> Vec<u8> {
    let digits: Vec<u8> = digits
        .chars()
        .filter(|found| !found.is_whitespace())
        .map(|found| found.to_digit(16).unwrap() as u8)
        .collect();
    assert_eq!(digits.len() % 2, 0);
    digits
        .chunks(2)
        .map(|pair| pair[0] * 16 + pair[1])
        .collect()
}

/// Document 01's example (a): `while (false) { break }`.
pub const WHILE_FALSE: &str =
    "01 0000001A 00 00000015 00000011 03 00000003 02 0F 00 00000005 00000001 08";

/// The node of each of its instructions: the While, its condition, the Break, the While.
pub const WHILE_FALSE_NODES: [u32; 4] = [10, 15, 26, 10];

pub const WHILE_FALSE_CODE: &str = "\
code 4 10
0 20 0 10 0 0 0 0000000000000000
3 14 0 0 0 0 0 0000000000000000
4 1F 0 6 0 0 0 0000000000000000
7 1F 0 -7 0 0 0 0000000000000000
";

/// A unit with what it must give, as `trial/README.md` describes the files.
pub struct Recorded {
    pub name: String,
    pub unit: Vec<u8>,
    pub stage: Option<String>,
    pub labelled: Option<String>,
}

pub fn recorded(path: &str) -> Vec<Recorded> {
    let mut units = Vec::new();
    let mut is_stage = true;
    for line in text_of(path).lines().filter(|line| !line.starts_with('#')) {
        let words: Vec<&str> = line.split(' ').collect();
        match words[..] {
            ["unit", name, digits] => units.push(Recorded {
                name: name.into(),
                unit: hex(digits),
                stage: None,
                labelled: None,
            }),
            ["stage"] => is_stage = true,
            ["labelled"] => is_stage = false,
            [""] => {}
            _ => {
                let last = units.last_mut().expect("an answer without a unit");
                let answer = if is_stage {
                    &mut last.stage
                } else {
                    &mut last.labelled
                };
                let answer = answer.get_or_insert_default();
                answer.push_str(line);
                answer.push('\n');
            }
        }
    }
    units
}

/// The listing that a printed one stands for.
pub fn listing_of(code: &str) -> Vec<u8> {
    listing_with(code, &[])
}

/// The same with these nodes, which a text does not have; 0 where there is none.
pub fn listing_with(code: &str, nodes: &[u32]) -> Vec<u8> {
    let mut records = Vec::new();
    for (index, line) in code.lines().skip(1).enumerate() {
        let words: Vec<&str> = line.split(' ').collect();
        let number = |at: usize| words[at].parse::<i32>().unwrap();
        records.push(u8::from_str_radix(words[1], 16).unwrap());
        records.push(number(2) as u8);
        (3..7).for_each(|at| records.extend((number(at) as u16).to_be_bytes()));
        records.extend(u64::from_str_radix(words[7], 16).unwrap().to_be_bytes());
        let node = nodes.get(index).copied().unwrap_or_default();
        records.extend(node.to_be_bytes());
    }
    let mut listing = vec![1];
    listing.extend((records.len() as u32).to_be_bytes());
    listing.extend(records);
    listing
}

/// A unit with so many Block statements one in another, also more than a unit may have.
pub fn nested_blocks(depth: usize) -> Vec<u8> {
    let counted = |content: Vec<u8>| {
        let mut bytes = (content.len() as u32).to_be_bytes().to_vec();
        bytes.extend(content);
        bytes
    };
    let node = |inner, _| counted([vec![2], counted(inner)].concat());
    let block = counted((0..depth).fold(Vec::new(), node));
    [vec![1], counted([vec![0], block].concat())].concat()
}

pub fn script(stmts: impl Into<Vec<Stmt>>) -> Script {
    Script {
        returns: false,
        block: Block::new(stmts),
    }
}

pub fn callee(params: usize) -> Callee {
    Callee {
        function: 5,
        name: 6,
        line: 7,
        flags: CallFlags {
            is_native: true,
            ..CallFlags::default()
        },
        params: vec![Param::Plain; params],
    }
}

pub fn call(params: usize, args: impl Into<Vec<Expr>>) -> Call {
    Call {
        callee: callee(params),
        args: args.into(),
    }
}

pub fn every_const() -> [Const; 16] {
    [
        Const::Str(1),
        Const::CName(2),
        Const::ResRef(3),
        Const::TweakDbId(4),
        Const::EnumVariant {
            enum_index: 5,
            value: 6,
        },
        Const::F32(1.5),
        Const::F64(-2.5),
        Const::I8(-1),
        Const::I16(-2),
        Const::I32(-3),
        Const::I64(-4),
        Const::U8(255),
        Const::U16(65_535),
        Const::U32(7),
        Const::U64(8),
        Const::Bool(true),
    ]
}

pub fn every_default() -> [DefaultValue; 23] {
    [
        DefaultValue::Variant,
        DefaultValue::Array(1),
        DefaultValue::Struct(2),
        DefaultValue::Aggregate,
        DefaultValue::Enum(3),
        DefaultValue::String(4),
        DefaultValue::CName(5),
        DefaultValue::ResRef(6),
        DefaultValue::TweakDbId(7),
        DefaultValue::F32,
        DefaultValue::F64,
        DefaultValue::I8,
        DefaultValue::I16,
        DefaultValue::I32,
        DefaultValue::I64,
        DefaultValue::U8,
        DefaultValue::U16,
        DefaultValue::U32,
        DefaultValue::U64,
        DefaultValue::Bool,
        DefaultValue::Ref,
        DefaultValue::WeakRef,
        DefaultValue::NoValue,
    ]
}

/// An expression of each of the 16 kinds, with all forms, constants and intrinsics.
pub fn every_expr() -> Vec<Expr> {
    let local = || Box::new(Expr::local(1));
    let mut all = vec![
        Expr::Nop,
        Expr::Null { weak: false },
        Expr::Null { weak: true },
        Expr::NewInstance { class: 9 },
        Expr::Construct {
            class: 9,
            args: vec![Expr::Nop, Expr::i32(2)],
        },
        Expr::assign(Expr::local(1), Expr::i32(2)),
        Expr::Index {
            dynamic: true,
            array_type: 3,
            array: local(),
            index: local(),
        },
        Expr::Conditional {
            condition: Box::new(Expr::bool(true)),
            then: local(),
            otherwise: Box::new(Expr::Nop),
        },
        Expr::DynCast {
            class: 4,
            weak: true,
            expr: local(),
        },
        Expr::FreeCall(call(2, [Expr::Nop])),
        Expr::StaticCall(call(0, [])),
        Expr::InstanceCall {
            weak: true,
            receiver: local(),
            call: call(3, [Expr::local(2), Expr::Nop]),
        },
        Expr::ClosureCall {
            closure: local(),
            name: 8,
            line: 9,
            args: vec![Expr::bool(false)],
        },
    ];
    all.extend(every_const().map(Expr::Const));
    let forms = [FieldForm::Struct, FieldForm::Object, FieldForm::WeakObject];
    all.extend(forms.map(|form| Expr::Field {
        form,
        field: 5,
        receiver: local(),
    }));
    let locals = [
        Local::This,
        Local::Local(1),
        Local::Param(2),
        Local::ObjectField(3),
    ];
    all.extend(locals.map(Expr::Local));
    all.extend(
        Intrinsic::ALL
            .map(|intrinsic| Expr::Intrinsic(IntrinsicCall::new(intrinsic, 7, [Expr::local(1)]))),
    );
    all
}

/// A statement of each of the 10 kinds, with all expressions and defaults.
pub fn every_stmt() -> Vec<Stmt> {
    let mut all: Vec<Stmt> = every_expr().into_iter().map(Stmt::from).collect();
    all.extend(every_default().map(|default| Stmt::InitDefault { local: 1, default }));
    let branch = || ConditionalBlock::new(Expr::bool(true), [Expr::Nop.into()]);
    for default in [None, Some(Block::new([Expr::i32(5).into()]))] {
        all.push(Stmt::Branches {
            branches: vec![branch(), branch()],
            default: default.clone(),
        });
        all.push(Stmt::Switch {
            scrutinee_type: 4,
            scrutinee: Expr::local(1),
            cases: vec![
                Case::new(Expr::i32(1), []),
                Case::new(Expr::i32(2), [Stmt::Break]),
            ],
            default_index: 1,
            default,
        });
    }
    all.extend([
        Stmt::Block(Block::new([Stmt::Block(Block::default())])),
        Stmt::While(ConditionalBlock::new(
            Expr::bool(false),
            [Stmt::Break, Stmt::Continue],
        )),
        Stmt::InitArray {
            local: 1,
            array_type: 2,
            elements: vec![Expr::Nop, Expr::i32(1)],
        },
        Stmt::Return(None),
        Stmt::Return(Some(Expr::local(1))),
    ]);
    all
}

/// A node with all those around it, outermost first: names and offsets.
pub type Chain = Vec<(&'static str, usize)>;

/// Reads a unit strictly by document 01, and gives every node in order. Whatever would be refused in reading is a panic.
pub fn read_strictly(unit: &[u8]) -> Vec<Chain> {
    assert!(unit.len() <= 1_048_576 && unit[0] == 1 && unit[5] < 2);
    let mut reader = Reader {
        unit,
        at: 1,
        open: Vec::new(),
        nodes: Vec::new(),
    };
    let end = reader.span(unit.len());
    assert_eq!(end, unit.len());
    reader.at += 1;
    reader.block(end);
    assert_eq!(reader.at, end);
    reader.nodes
}

struct Reader<'a> {
    unit: &'a [u8],
    at: usize,
    open: Chain,
    nodes: Vec<Chain>,
}

impl Reader<'_> {
    fn number(&mut self, width: usize, end: usize) -> u64 {
        assert!(self.at + width <= end);
        let bytes = &self.unit[self.at..self.at + width];
        self.at += width;
        bytes
            .iter()
            .fold(0, |sum, &byte| sum << 8 | u64::from(byte))
    }

    fn below(&mut self, bound: u64, end: usize) -> u64 {
        let value = self.number(1, end);
        assert!(value < bound);
        value
    }

    fn span(&mut self, holder: usize) -> usize {
        let end = self.number(4, holder) as usize + self.at;
        assert!(end <= holder);
        end
    }

    /// Items that fill a run, and how many.
    fn run(&mut self, holder: usize, item: fn(&mut Self, usize)) -> usize {
        let end = self.span(holder);
        let mut count = 0;
        while self.at < end {
            item(self, end);
            count += 1;
        }
        assert_eq!(self.at, end);
        count
    }

    fn block(&mut self, holder: usize) {
        self.run(holder, Self::stmt);
    }

    fn exprs(&mut self, holder: usize) -> usize {
        self.run(holder, Self::expr)
    }

    fn arm(&mut self, holder: usize) {
        self.expr(holder);
        self.block(holder);
    }

    fn node(
        &mut self,
        holder: usize,
        names: &[&'static str],
        body: fn(&mut Self, &'static str, usize),
    ) {
        let offset = self.at;
        let end = self.span(holder);
        let kind = self.number(1, end) as usize;
        assert!((1..=names.len()).contains(&kind));
        self.open.push((names[kind - 1], offset));
        assert!(self.open.len() <= 200);
        self.nodes.push(self.open.clone());
        body(self, names[kind - 1], end);
        assert_eq!(self.at, end);
        self.open.pop();
    }

    fn stmt(&mut self, holder: usize) {
        const NAMES: [&str; 10] = [
            "Expr",
            "Block",
            "While",
            "Branches",
            "Switch",
            "InitArray",
            "InitDefault",
            "Break",
            "Continue",
            "Return",
        ];
        self.node(holder, &NAMES, |node, name, end| match name {
            "Expr" => node.expr(end),
            "Block" => node.block(end),
            "While" => node.arm(end),
            "Branches" => {
                node.run(end, Self::arm);
                if node.below(2, end) == 1 {
                    node.block(end);
                }
            }
            "Switch" => {
                node.number(4, end);
                node.expr(end);
                node.number(4, end);
                let mark = node.below(2, end);
                node.run(end, Self::arm);
                if mark == 1 {
                    node.block(end);
                }
            }
            "InitArray" => {
                node.number(8, end);
                node.exprs(end);
            }
            "InitDefault" => {
                node.number(4, end);
                node.below(23, end);
                node.number(4, end);
            }
            "Return" => {
                let mark = node.below(2, end);
                (0..mark).for_each(|_| node.expr(end));
            }
            _ => {}
        });
    }

    fn expr(&mut self, holder: usize) {
        const NAMES: [&str; 16] = [
            "Nop",
            "Const",
            "Null",
            "NewInstance",
            "Construct",
            "Assign",
            "Field",
            "Index",
            "Conditional",
            "DynCast",
            "Local",
            "Intrinsic",
            "FreeCall",
            "StaticCall",
            "InstanceCall",
            "ClosureCall",
        ];
        self.node(holder, &NAMES, |node, name, end| match name {
            "Const" => node.constant(end),
            "Null" => {
                node.below(2, end);
            }
            "NewInstance" => {
                node.number(4, end);
            }
            "Construct" => {
                node.number(4, end);
                node.exprs(end);
            }
            "Assign" => (0..2).for_each(|_| node.expr(end)),
            "Field" => {
                node.below(3, end);
                node.number(4, end);
                node.expr(end);
            }
            "Index" => {
                node.below(2, end);
                node.number(4, end);
                (0..2).for_each(|_| node.expr(end));
            }
            "Conditional" => (0..3).for_each(|_| node.expr(end)),
            "DynCast" => {
                node.number(4, end);
                node.below(2, end);
                node.expr(end);
            }
            "Local" => {
                node.below(4, end);
                node.number(4, end);
            }
            "Intrinsic" => {
                node.below(34, end);
                node.below(2, end);
                node.number(1, end);
                node.number(4, end);
                node.exprs(end);
            }
            "FreeCall" | "StaticCall" => node.call(end),
            "InstanceCall" => {
                node.below(2, end);
                node.expr(end);
                node.call(end);
            }
            "ClosureCall" => {
                node.expr(end);
                node.number(6, end);
                node.exprs(end);
            }
            _ => {}
        });
    }

    fn constant(&mut self, end: usize) {
        const WIDTHS: [usize; 15] = [4, 4, 4, 4, 8, 4, 8, 1, 2, 4, 8, 1, 2, 4, 8];
        let byte = self.below(16, end) as usize;
        match WIDTHS.get(byte) {
            Some(&width) => self.number(width, end),
            None => self.below(2, end),
        };
    }

    fn call(&mut self, end: usize) {
        self.number(10, end);
        self.below(16, end);
        let params = self.number(1, end);
        (0..params).for_each(|_| {
            self.below(2, end);
        });
        assert!(self.exprs(end) as u64 <= params);
    }
}
