//! Random units.

mod damage;
mod encode;
mod limits;
mod tree;

use crate::random::Random;
use encode::unit;
use tree::{Maker, Wrong};

/// How large the units are.
#[derive(Debug, Clone, Copy, PartialEq, Eq)]
pub enum Size {
    /// At most 120 bytes, or 230 for a call with many arguments.
    Small,
    /// Up to a few thousand bytes, with chains of up to 201 nodes.
    Medium,
    /// Around the limits: 16-bit distances, 65,536 labels, 255 arguments; or just large.
    Big,
    /// Around 1,048,576 bytes.
    Longest,
}

/// One in four units is damaged after it was made.
pub fn random_unit(random: &mut Random, size: Size) -> Vec<u8> {
    let unit = undamaged_unit(random, size);
    match random.once_in(4) {
        true => damage::damaged(random, unit),
        false => unit,
    }
}

/// As it was made, which may be with something wrong in it.
pub fn undamaged_unit(random: &mut Random, size: Size) -> Vec<u8> {
    match size {
        Size::Small => small(random),
        Size::Medium => medium(random),
        Size::Big => limits::big(random),
        Size::Longest => limits::longest(random),
    }
}

/// Damaged once or several times, spliced from two, or no unit from the start.
pub fn damaged_unit(random: &mut Random, size: Size) -> Vec<u8> {
    match random.between(1, 10) {
        1 => damage::random_bytes(random),
        2 => {
            let unit = undamaged_unit(random, size);
            let other = undamaged_unit(random, size);
            damage::spliced(random, unit, &other)
        }
        3..=4 => {
            let unit = undamaged_unit(random, size);
            damage::often_damaged(random, unit)
        }
        _ => {
            let unit = undamaged_unit(random, size);
            damage::damaged(random, unit)
        }
    }
}

fn small(random: &mut Random) -> Vec<u8> {
    if random.once_in(40) {
        return limits::many_arguments(random);
    }
    loop {
        let room = random.between(0, 90);
        let unit = tree(random, room);
        if unit.len() <= 120 {
            return unit;
        }
    }
}

fn medium(random: &mut Random) -> Vec<u8> {
    match random.between(1, 10) {
        1 => limits::deep(random),
        2 => limits::many_arguments(random),
        _ => {
            let room = random.between(100, 3_000);
            tree(random, room)
        }
    }
}

/// A random tree of about `room` bytes, in one of four cases with something wrong in it; one of ten is a loop around a switch.
fn tree(random: &mut Random, room: usize) -> Vec<u8> {
    let wrong = match random.once_in(4) {
        true => Some(random.pick(&[Wrong::Jump, Wrong::Intrinsic, Wrong::ExtraArguments])),
        false => None,
    };
    let returns = random.once_in(2);
    let is_loop = random.once_in(10);
    let mut maker = Maker::new(random, room, wrong);
    let body = match is_loop {
        true => maker.switch_in_loop(),
        false => maker.body(),
    };
    unit(returns, &body)
}
