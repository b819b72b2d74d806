//! Damaged copies of units.

use crate::random::Random;

const FRONT: usize = 6;

/// A unit whose block is empty; every damage needs as many bytes.
const SHORTEST: usize = 10;

pub fn damaged(random: &mut Random, mut unit: Vec<u8>) -> Vec<u8> {
    match random.between(1, 11) {
        1 => change_byte(random, &mut unit),
        2 => unit.truncate(random.between(0, unit.len())),
        3 => {
            unit.truncate(random.between(0, unit.len()));
            fix_front(&mut unit);
        }
        4 => {
            unit.remove(random.between(FRONT, unit.len() - 1));
            fix_front(&mut unit);
        }
        5 => {
            unit.insert(random.between(FRONT, unit.len()), random.bits() as u8);
            fix_front(&mut unit);
        }
        6 | 7 => change_length(random, &mut unit),
        _ => change_field(random, &mut unit),
    }
    unit
}

/// Damaged two to six times, as long as there is enough left to damage.
pub fn often_damaged(random: &mut Random, mut unit: Vec<u8>) -> Vec<u8> {
    for _ in 0..random.between(2, 6) {
        if unit.len() < SHORTEST {
            break;
        }
        unit = damaged(random, unit);
    }
    unit
}

/// The first bytes of one unit, then the last of another; the front's length agrees most often.
pub fn spliced(random: &mut Random, mut unit: Vec<u8>, other: &[u8]) -> Vec<u8> {
    unit.truncate(random.between(0, unit.len()));
    unit.extend(&other[random.between(0, other.len())..]);
    if !random.once_in(8) {
        fix_front(&mut unit);
    }
    unit
}

/// Up to 120 bytes, most often behind a front that agrees. Small ones are drawn more often: a
/// length of random bytes fits into nothing.
pub fn random_bytes(random: &mut Random) -> Vec<u8> {
    let count = random.between(0, 120);
    let highest = random.pick(&[1, 3, 16, 255]);
    let mut byte = || match random.once_in(2) {
        true => 0,
        false => random.between(0, highest) as u8,
    };
    let mut unit: Vec<u8> = (0..count).map(|_| byte()).collect();
    if count >= FRONT && !random.once_in(8) {
        unit[0] = 1;
        unit[5] &= 1;
        fix_front(&mut unit);
    }
    unit
}

/// Gives any byte another value.
fn change_byte(random: &mut Random, unit: &mut [u8]) {
    let at = random.between(0, unit.len() - 1);
    unit[at] = random.bits() as u8;
}

/// Gives a byte that is probably a kind or a field another value, most often a small one: one
/// that follows a byte other than 0.
fn change_field(random: &mut Random, unit: &mut [u8]) {
    let is_field = |at: &usize| unit[at - 1] != 0;
    let fields: Vec<usize> = (FRONT..unit.len()).filter(is_field).collect();
    if fields.is_empty() {
        return change_byte(random, unit);
    }
    let at = random.pick(&fields);
    unit[at] = match random.once_in(3) {
        true => random.bits() as u8,
        false => random.between(0, 40) as u8,
    };
}

/// Makes a length a little longer or shorter: the last of four bytes that begin with zeros.
fn change_length(random: &mut Random, unit: &mut [u8]) {
    let is_length = |at: &usize| unit[*at..].starts_with(&[0, 0, 0]);
    let lengths: Vec<usize> = (FRONT..unit.len() - 3).filter(is_length).collect();
    let at = match &lengths[..] {
        [] => FRONT + 3,
        lengths => random.pick(lengths) + 3,
    };
    let change = random.pick(&[-5_i8, -4, -1, -1, 1, 1, 4, 5]);
    unit[at] = unit[at].wrapping_add_signed(change);
}

/// Makes the front's length agree, as far as there is a front.
fn fix_front(unit: &mut [u8]) {
    if let Some(rest) = unit.len().checked_sub(5) {
        unit[1..5].copy_from_slice(&(rest as u32).to_be_bytes());
    }
}
