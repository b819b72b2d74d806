//! Units around the limits of document 01.

use super::encode::{counted, expr, stmt, unit};
use super::tree::{Maker, Wrong};
use crate::random::Random;

pub fn big(random: &mut Random) -> Vec<u8> {
    let stmts = match random.between(1, 40) {
        1 => many_labels(random),
        2..=3 => long_construct(random),
        4..=12 => {
            let room = random.between(5_000, 60_000);
            let wrong = random.once_in(8).then_some(Wrong::Jump);
            return unit(random.once_in(2), &Maker::new(random, room, wrong).body());
        }
        13..=30 => distant_stmts(random),
        _ => stmt::expr(&distant_expr(random)),
    };
    let before = nops(random.between(0, 3));
    unit(false, &counted(&[before, stmts].concat()))
}

/// A call with 14 to 19 arguments, of which one or two, often near the sixteenth, are AsRef.
pub fn many_arguments(random: &mut Random) -> Vec<u8> {
    let count = random.between(14, 19);
    let flagged = [random.between(0, count - 1), random.between(13, count - 1)];
    let kind = random.between(13, 15);
    let mut maker = Maker::new(random, 0, None);
    let args: Vec<u8> = (0..count)
        .flat_map(|index| match flagged.contains(&index) {
            true => maker.as_ref(),
            false => expr::nop(),
        })
        .collect();
    let params = maker.params(count);
    let call = maker.call_of(&params, &args);
    let call = match kind {
        13 => call.free(),
        14 => call.static_(),
        _ => call.instance(false, &expr::nop()),
    };
    unit(false, &counted(&stmt::expr(&call)))
}

/// A chain of 190 to 201 nested nodes.
pub fn deep(random: &mut Random) -> Vec<u8> {
    let depth = random.pick(&[190, 198, 199, 200, 200, 200, 201]);
    let expr_depth = random.between(1, depth - 1);
    let mut expr = Maker::new(random, 0, None).expr();
    for _ in 1..expr_depth {
        expr = around_expr(random, &expr);
    }
    let mut stmts = stmt::expr(&expr);
    for _ in expr_depth + 1..depth {
        stmts = around_stmts(random, &stmts);
    }
    unit(true, &counted(&stmts))
}

/// An expression that holds the given one, one level down.
fn around_expr(random: &mut Random, inner: &[u8]) -> Vec<u8> {
    let nop = expr::nop();
    let kind = random.between(5, 16);
    let form = random.between(0, 2) as u8;
    let params = [form > 0];
    let mut maker = Maker::new(random, 0, None);
    let call = maker.call_of(&params, inner);
    match kind {
        5 => expr::construct(1, inner),
        6 => expr::assign(&nop, inner),
        7 => expr::field(form, 2, inner),
        8 => expr::element(form == 0, 3, inner, &nop),
        9 if form == 0 => expr::conditional(inner, &nop, &nop),
        9 if form == 1 => expr::conditional(&nop, inner, &nop),
        9 => expr::conditional(&nop, &nop, inner),
        10 => expr::dyn_cast(4, form == 0, inner),
        11 | 12 => expr::intrinsic(0, false, 1, 5, inner),
        13 => call.free(),
        14 => call.static_(),
        15 => call.instance(form == 0, &nop),
        _ => maker.call_of(&[], &nop).closure(inner),
    }
}

/// A statement that holds the given ones, one level down.
fn around_stmts(random: &mut Random, inner: &[u8]) -> Vec<u8> {
    let nop = expr::nop();
    let branch = [nop.clone(), counted(inner)].concat();
    match random.between(1, 6) {
        1 => stmt::block(inner),
        2 => stmt::while_(&nop, inner),
        3 => stmt::branches(&branch, None),
        4 => stmt::branches(&[], Some(inner)),
        5 => stmt::switch(6, &nop, 0, &branch, Some(&stmt::break_())),
        _ => stmt::switch(7, &nop, 0, &[], Some(inner)),
    }
}

/// A call and Nops of 1,048,573 to 1,048,579 bytes in all. A parameter is a byte.
pub fn longest(random: &mut Random) -> Vec<u8> {
    const FRONT: usize = 10;
    const CALL: usize = 26;
    const NOP: usize = 10;

    let rest = random.between(1_048_573, 1_048_579) - FRONT - CALL;
    let params = vec![false; rest % NOP];
    let call = Maker::new(random, 0, None).call_of(&params, &[]).free();
    let stmts = [stmt::expr(&call), nops(rest / NOP)];
    unit(false, &counted(&stmts.concat()))
}

/// Construct with 254 to 257 arguments.
fn long_construct(random: &mut Random) -> Vec<u8> {
    let args = expr::nop().repeat(random.between(254, 257));
    stmt::expr(&expr::construct(8, &args))
}

/// 65,533 to 65,539 labels.
fn many_labels(random: &mut Random) -> Vec<u8> {
    let labels = random.between(65_533, 65_539);
    let pair = [expr::nop(), counted(&[])].concat();
    let (stmts, made) = match random.between(1, 3) {
        1 => (stmt::branches(&pair.repeat(labels - 2), None), labels),
        2 => {
            let cases = pair.repeat(labels - 3);
            (stmt::switch(1, &expr::nop(), 0, &cases, None), labels)
        }
        _ => {
            let count = (labels - 3) / 2;
            let cases = pair.repeat(count);
            let default_index = random.between(0, count - 1) as u32;
            let switch = stmt::switch(1, &expr::nop(), default_index, &cases, Some(&[]));
            (switch, 3 + 2 * count)
        }
    };
    let field = stmt::expr(&expr::field(1, 2, &expr::nop()));
    [stmts, field.repeat(labels - made)].concat()
}

fn nops(count: usize) -> Vec<u8> {
    stmt::expr(&expr::nop()).repeat(count)
}

/// A size which is just short of 16 bits, or just over.
fn far(random: &mut Random) -> usize {
    random.between(32_728, 32_775)
}

/// Statements of this virtual size, at least 56.
fn fill_stmts(size: usize) -> Vec<u8> {
    const HEAD: usize = 27;
    const ELEMENT: usize = 29;

    let elements = expr::nop().repeat((size - HEAD) / ELEMENT);
    let array = stmt::init_array(1, 2, &elements);
    [array, nops((size - HEAD) % ELEMENT)].concat()
}

/// An expression of this virtual size, at least 1.
fn fill_expr(size: usize) -> Vec<u8> {
    const IS_DEFINED: u8 = 32;
    const ENUM_CONST: usize = 17;

    let long = expr::constant(4, &[9; 8]).repeat((size - 1) / ENUM_CONST);
    let short = expr::nop().repeat((size - 1) % ENUM_CONST);
    expr::intrinsic(IS_DEFINED, false, 0, 0, &[long, short].concat())
}

/// Statements with a jump over about 32,767.
fn distant_stmts(random: &mut Random) -> Vec<u8> {
    let size = far(random);
    let nop = expr::nop();
    let one = nops(1);
    let pair = |matcher: &[u8], stmts: &[u8]| [matcher, &counted(stmts)].concat();
    let small = pair(&nop, &one);
    let empty = pair(&nop, &[]);
    let large = || pair(&nop, &fill_stmts(size));
    let large_matcher = || pair(&fill_expr(size), &one);
    let switch = |index, cases: &[Vec<u8>], default: Option<&[u8]>| {
        stmt::switch(1, &nop, index, &cases.concat(), default)
    };
    match random.between(1, 18) {
        1 => stmt::while_(&nop, &fill_stmts(size)),
        2 => stmt::while_(&fill_expr(size), &[]),
        3 => stmt::while_(&nop, &[stmt::break_(), fill_stmts(size)].concat()),
        4 => stmt::while_(&nop, &[fill_stmts(size), stmt::continue_()].concat()),
        5 => stmt::branches(&large(), None),
        6 => stmt::branches(&[small, large()].concat(), None),
        7 => stmt::branches(&small, Some(&fill_stmts(size))),
        8 => stmt::switch(1, &fill_expr(size), 0, &small, None),
        9 => switch(0, &[large(), small], None),
        10 => switch(0, &[large_matcher(), small], None),
        11 => switch(0, &[empty, large_matcher()], None),
        12 => switch(1, &[small, large()], Some(&one)),
        13 => switch(0, &[small.clone(), small], Some(&fill_stmts(size))),
        14 => switch(1, &[large(), small], Some(&one)),
        15 => switch(1, &[large_matcher(), small], Some(&one)),
        16 => switch(2, &[small.clone(), small], Some(&fill_stmts(size))),
        17 => switch(9, &[pair(&nop, &stmt::break_()), large()], None),
        _ => {
            let far_break = switch(0, &[small, large()], Some(&stmt::break_()));
            stmt::while_(&nop, &far_break)
        }
    }
}

/// An expression with a jump over about 32,767.
fn distant_expr(random: &mut Random) -> Vec<u8> {
    let size = far(random);
    let nop = expr::nop();
    let fill = fill_expr(size);
    let form = random.between(1, 2) as u8;
    let kind = random.between(1, 10);
    let mut maker = Maker::new(random, 0, None);
    match kind {
        1 => expr::conditional(&fill, &nop, &nop),
        2 => expr::conditional(&nop, &fill, &nop),
        3 => expr::conditional(&nop, &nop, &fill),
        4 => expr::field(form, 1, &fill),
        5 => maker.call_of(&[false], &fill).free(),
        6 => maker.call_of(&[true], &fill).static_(),
        7 => maker.call_of(&[], &[]).instance(form == 1, &fill),
        8 => maker
            .call_of(&[false, true], &fill)
            .instance(form == 1, &nop),
        9 => maker.call_of(&[], &[]).closure(&fill),
        _ => maker.call_of(&[], &fill).closure(&nop),
    }
}
