//! Trees as units: their bytes, their form and the limits.

mod common;

use std::collections::BTreeSet;

use common::{WHILE_FALSE, call, every_stmt, hex, read_strictly, script, text_of};
use delzhomo::tree::*;
use delzhomo::{EncodeError, MAX_BYTES, Unit};

fn while_false() -> Script {
    let body = ConditionalBlock::new(Expr::bool(false), [Stmt::Break]);
    script([Stmt::While(body)])
}

#[test]
fn example_a_has_the_bytes_of_the_document() {
    let unit = while_false().encode().unwrap();
    assert_eq!(unit.bytes(), hex(WHILE_FALSE));
}

#[test]
fn the_empty_script_has_ten_bytes() {
    let unit = Script {
        returns: true,
        ..script([])
    };
    assert_eq!(
        unit.encode().unwrap().bytes(),
        hex("0100000005 01 00000000")
    );
}

#[test]
fn trees_give_the_example_units() {
    let call = Expr::InstanceCall {
        weak: true,
        receiver: Box::new(Expr::Local(Local::Param(4))),
        call: Call {
            callee: Callee {
                function: 5,
                name: 6,
                line: 7,
                flags: CallFlags {
                    force_static: true,
                    ..CallFlags::default()
                },
                params: vec![Param::ShortCircuit, Param::Plain, Param::ShortCircuit],
            },
            args: vec![Expr::bool(true)],
        },
    };
    let switch = Stmt::Switch {
        scrutinee_type: 9,
        scrutinee: Expr::Nop,
        cases: vec![
            Case::new(Expr::Nop, [Expr::Null { weak: false }.into()]),
            Case::new(Expr::Nop, [Stmt::Break]),
        ],
        default_index: 1,
        default: Some(Block::new([Expr::i32(0x01020304).into()])),
    };
    let array = Stmt::InitArray {
        local: 1,
        array_type: 2,
        elements: vec![Expr::Nop; 1129],
    };
    let distant = ConditionalBlock::new(Expr::bool(false), [array]);
    let examples = [
        ("while-false", while_false()),
        ("call", script([call.into()])),
        ("switch-mid-default", script([switch])),
        ("refused-in-the-walk", script([Stmt::Break])),
        ("too-distant", script([Stmt::While(distant)])),
    ];
    for (name, tree) in examples {
        let text = text_of(&format!("examples/{name}.hex"));
        assert_eq!(
            tree.encode().unwrap(),
            Unit::from_hex(&text).unwrap(),
            "{name}"
        );
    }
}

#[test]
fn every_kind_is_read_strictly() {
    let unit = script(every_stmt()).encode().unwrap();
    let names: BTreeSet<_> = read_strictly(unit.bytes())
        .iter()
        .map(|chain| chain.last().unwrap().0)
        .collect();
    // the statement Expr and 25 others
    assert_eq!(names.len(), 26);
}

#[test]
fn flags_are_bits_from_the_lowest() {
    let by_bit = [
        CallFlags {
            is_final: true,
            ..CallFlags::default()
        },
        CallFlags {
            is_static: true,
            ..CallFlags::default()
        },
        CallFlags {
            is_native: true,
            ..CallFlags::default()
        },
        CallFlags {
            force_static: true,
            ..CallFlags::default()
        },
    ];
    for (bit, flags) in by_bit.into_iter().enumerate() {
        let mut call = call(0, []);
        call.callee.flags = flags;
        let unit = script([Expr::FreeCall(call).into()]).encode().unwrap();
        // front 6, block 4, statement 5, call 5, function, name and line 10
        assert_eq!(unit.bytes()[30], 1 << bit);
    }
}

#[test]
fn codes_and_bytes_are_in_order() {
    for (code, intrinsic) in Intrinsic::ALL.into_iter().enumerate() {
        assert_eq!(usize::from(intrinsic.code()), code);
    }
    for (byte, constant) in common::every_const().into_iter().enumerate() {
        let unit = script([Expr::Const(constant).into()]).encode().unwrap();
        assert_eq!(usize::from(unit.bytes()[20]), byte);
    }
    for (byte, default) in common::every_default().into_iter().enumerate() {
        let unit = script([Stmt::InitDefault { local: 1, default }])
            .encode()
            .unwrap();
        assert_eq!(usize::from(unit.bytes()[19]), byte);
    }
}

#[test]
fn intrinsics_have_their_published_names_and_order() {
    let published = text_of("trial/redscript/ir/intrinsic.rs");
    let list = published.split("pub enum Intrinsic {").nth(1).unwrap();
    let names: Vec<&str> = list
        .split('}')
        .next()
        .unwrap()
        .split(',')
        .map(str::trim)
        .filter(|name| !name.is_empty())
        .collect();
    assert_eq!(names, Intrinsic::ALL.map(|each| format!("{each:?}")));
}

fn nested(depth: usize) -> Script {
    let innermost = Stmt::Break;
    let stmt = (1..depth).fold(innermost, |inner, _| Stmt::Block(Block::new([inner])));
    script([stmt])
}

#[test]
fn depth_200_is_the_last() {
    read_strictly(nested(200).encode().unwrap().bytes());
    assert_eq!(nested(201).encode(), Err(EncodeError::TooDeep));
    assert_eq!(nested(2_000).encode(), Err(EncodeError::TooDeep));
}

#[test]
fn expressions_count_for_depth() {
    let deep = |depth: usize| {
        let cast = |inner, _| Expr::DynCast {
            class: 1,
            weak: false,
            expr: Box::new(inner),
        };
        // the statement around it is one more
        script([(2..depth).fold(Expr::Nop, cast).into()])
    };
    read_strictly(deep(200).encode().unwrap().bytes());
    assert_eq!(deep(201).encode(), Err(EncodeError::TooDeep));
}

#[test]
fn the_longest_unit_has_the_limit() {
    // front and block 10 bytes, each Break 5, a Return without a value 6: 209,712 × 5 + 6 + 10
    let mut stmts = vec![Stmt::Break; 209_712];
    stmts.push(Stmt::Return(None));
    let unit = script(stmts.clone()).encode().unwrap();
    assert_eq!(unit.bytes().len(), MAX_BYTES);
    stmts.push(Stmt::Break);
    assert_eq!(script(stmts).encode(), Err(EncodeError::TooLong));
}

#[test]
fn calls_have_limits() {
    let free = |params, args: usize| {
        let call = call(params, vec![Expr::Nop; args]);
        script([Expr::FreeCall(call).into()]).encode()
    };
    read_strictly(free(255, 255).unwrap().bytes());
    assert_eq!(
        free(256, 0),
        Err(EncodeError::TooManyParameters { count: 256 })
    );
    let too_many = EncodeError::TooManyArguments {
        arguments: 3,
        parameters: 2,
    };
    assert_eq!(free(2, 3), Err(too_many));
    let intrinsic = |type_args| {
        let call = IntrinsicCall {
            type_args,
            ..IntrinsicCall::new(Intrinsic::Equals, 1, [])
        };
        script([Expr::Intrinsic(call).into()]).encode()
    };
    read_strictly(intrinsic(255).unwrap().bytes());
    assert_eq!(
        intrinsic(256),
        Err(EncodeError::TooManyTypeArguments { count: 256 })
    );
}
