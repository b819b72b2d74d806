//! Listings as the game's loader stores them, and the way back.

mod common;

use std::collections::BTreeSet;

use common::{
    WHILE_FALSE_CODE, WHILE_FALSE_NODES, call, every_stmt, listing_of, listing_with,
    nops_in_a_loop, recorded, refusal, unit, while_false,
};
use delzhomo::tree::*;
use delzhomo::{
    Assembler, Instruction, Listing, Refusal, Stored, StoredField, Tag, Unit, listing_length,
    restore_into, store_into,
};

/// What the loader takes off first and second, for every instruction that has a jump.
const LESS: [(Tag, i16, i16); 9] = [
    (Tag::Jump, 3, 0),
    (Tag::JumpIfFalse, 3, 0),
    (Tag::Skip, 3, 0),
    (Tag::Context, 3, 0),
    (Tag::InvokeStatic, 3, 0),
    (Tag::InvokeVirtual, 3, 0),
    (Tag::Conditional, 3, 5),
    (Tag::SwitchLabel, 3, 5),
    (Tag::Switch, 11, 0),
];

/// An instruction as the loader stores it, worked out from the table above.
fn as_stored(code: Instruction) -> Instruction<StoredField> {
    let row = LESS.into_iter().find(|row| row.0 == code.tag);
    let (_, first, second) = row.unwrap_or((code.tag, 0, 0));
    let less = |distance: Option<i16>, off| distance.map(|distance| StoredField(distance - off));
    Instruction {
        first: less(code.first, first),
        second: less(code.second, second),
        index: code.index,
        start: code.start,
        tag: code.tag,
        small: code.small,
        line: code.line,
        flags: code.flags,
        value: code.value,
        node: code.node,
    }
}

/// Stores a listing, asserts that each instruction is as worked out, and that it is restored.
fn stored_and_restored(listing: Listing<'_>) -> Stored {
    let stored = listing.stored().unwrap();
    assert!(stored.iter().eq(listing.iter().map(as_stored)));
    assert_eq!(
        (stored.len(), stored.size()),
        (listing.len(), listing.size())
    );
    assert_eq!(stored.restored().unwrap(), listing.bytes());
    stored
}

/// A unit in whose code every instruction stands that has a jump.
fn every_jump() -> Unit {
    let nop = || Box::new(Expr::Nop);
    let mut method = call(1, [Expr::Nop]);
    method.callee.params = vec![Param::ShortCircuit];
    method.callee.flags = CallFlags::default();
    unit([
        Expr::StaticCall(call(0, [])).into(),
        Expr::InstanceCall {
            weak: false,
            receiver: nop(),
            call: method,
        }
        .into(),
        Expr::Conditional {
            condition: nop(),
            then: nop(),
            otherwise: nop(),
        }
        .into(),
        Stmt::Switch {
            scrutinee_type: 4,
            scrutinee: Expr::Nop,
            cases: vec![Case::new(Expr::Nop, [Stmt::Break])],
            default_index: 0,
            default: None,
        },
        Stmt::While(ConditionalBlock::new(Expr::Nop, [])),
    ])
}

#[test]
fn each_jump_is_stored_less_its_constant() {
    let mut assembler = Assembler::new();
    let listing = assembler.assemble(every_jump()).unwrap();
    let jumps = listing.iter().filter(|each| each.first.is_some());
    let jumps: BTreeSet<Tag> = jumps.map(|each| each.tag).collect();
    assert_eq!(jumps, LESS.map(|row| row.0).into());
    stored_and_restored(listing);
}

#[test]
fn a_listing_of_a_unit_is_never_refused_with_33() {
    let mut assembler = Assembler::new();
    let mut units: Vec<Unit> = every_stmt().into_iter().map(|stmt| unit([stmt])).collect();
    let recorded = recorded("trial/recorded.txt").into_iter();
    units.extend(recorded.map(|each| Unit::from(each.unit)));
    let mut changed = 0;
    for unit in units {
        if let Ok(listing) = assembler.assemble(&unit) {
            let stored = stored_and_restored(listing);
            changed += usize::from(stored.bytes() != listing.bytes());
        }
    }
    assert!(changed > 500, "{changed}");
    // the farthest back that a script can jump
    let farthest = assembler.assemble(nops_in_a_loop(32_760)).unwrap();
    assert_eq!(farthest.iter().last().unwrap().first, Some(-32_764));
    let last = stored_and_restored(farthest).iter().last().unwrap();
    assert_eq!(last.first, Some(StoredField(-32_767)));
}

#[test]
fn a_stored_listing_is_typed_and_printed() {
    let mut assembler = Assembler::new();
    let stored = assembler.assemble(while_false()).unwrap().stored().unwrap();
    let printed = "\
stored 4 10
0 20 0 7 0 0 0 0000000000000000
3 14 0 0 0 0 0 0000000000000000
4 1F 0 3 0 0 0 0000000000000000
7 1F 0 -10 0 0 0 0000000000000000
";
    assert_eq!(stored.to_string(), printed);
    assert!(!stored.is_empty());
    let nodes: Vec<u32> = (&stored).into_iter().map(|each| each.node).collect();
    assert_eq!(nodes, WHILE_FALSE_NODES);
    let bytes = stored.bytes().to_vec();
    assert_eq!(bytes, listing_with(printed, &WHILE_FALSE_NODES));
    assert_eq!(Stored::from_bytes(bytes.as_slice()).as_ref(), Ok(&stored));
    assert_eq!(stored.into_bytes(), bytes);
    let nothing = assembler.assemble(unit([])).unwrap().stored().unwrap();
    assert!(nothing.is_empty());
    assert_eq!(nothing.to_string(), "stored 0 0\n");
}

#[test]
fn what_is_no_listing_is_neither_stored_nor_restored() {
    let whole = listing_of(WHILE_FALSE_CODE);
    for end in 0..whole.len() {
        let cut = &whole[..end];
        let refused = Err(refusal(30, 0, 0));
        assert_eq!(Stored::from_bytes(cut), refused);
        assert_eq!(Listing::as_far_as_good(cut).stored(), refused);
    }
}

/// `store_into` or `restore_into`.
type Way = fn(&[u8], &mut [u8]) -> Result<usize, Refusal>;

/// What is written into so much room, and asserts that nothing else is: nothing behind the listing, and nothing at all if it is
/// refused.
fn moved(way: Way, listing: &[u8], room: usize) -> Result<Vec<u8>, Refusal> {
    let mut out = vec![0xA5; room];
    let answer = way(listing, &mut out);
    let written = answer.map_or(0, listing_length);
    assert!(out[written..].iter().all(|&byte| byte == 0xA5));
    out.truncate(written);
    answer.map(|_| out)
}

/// A listing of these tags, firsts and seconds.
fn listing_of_jumps(jumps: impl IntoIterator<Item = (Tag, i16, i16)>) -> Vec<u8> {
    let line = |(tag, first, second): (Tag, i16, i16)| {
        format!("\n0 {:02X} 0 {first} {second} 0 0 0", tag.number())
    };
    listing_of(&jumps.into_iter().map(line).collect::<String>())
}

#[test]
fn storing_and_restoring_into_a_lent_buffer() {
    let mut assembler = Assembler::new();
    let listing = assembler.assemble(every_jump()).unwrap();
    let (code, stored) = (listing.bytes(), listing.stored().unwrap().into_bytes());
    let ways: [(Way, &[u8], &[u8]); 2] =
        [(store_into, code, &stored), (restore_into, &stored, code)];
    for (way, from, to) in ways {
        let length = from.len();
        for room in [0, 1, length - 1] {
            assert_eq!(moved(way, from, room), Err(refusal(20, 0, 0)));
        }
        for room in [length, length + 9] {
            assert_eq!(moved(way, from, room).as_deref(), Ok(to));
        }
    }
}

#[test]
fn every_distance_of_a_jump_is_stored_and_restored() {
    let distances = i16::MIN + 3..=i16::MAX;
    let code = listing_of_jumps(distances.clone().map(|each| (Tag::Jump, each, 0)));
    let stored = listing_of_jumps(distances.map(|each| (Tag::Jump, each - 3, 0)));
    assert_eq!(moved(store_into, &code, code.len()).as_ref(), Ok(&stored));
    assert_eq!(moved(restore_into, &stored, code.len()), Ok(code));
}

#[test]
fn one_more_than_16_bits_hold_is_refused() {
    for (tag, first, second) in LESS {
        let fields = [(first, 0), (second, 1)];
        for (off, extra) in fields.into_iter().filter(|field| field.0 > 0) {
            let with = |value| {
                let (first, second) = if extra == 0 { (value, 0) } else { (0, value) };
                listing_of_jumps([(Tag::Nop, 0, 0), (tag, first, second)])
            };
            let refused = Err(refusal(33, 1, extra));
            let taken = |way, value| moved(way, &with(value), 100).map(|_| ());
            // the other field is 0, which is near enough to be moved
            assert_eq!(taken(store_into, i16::MIN + off), Ok(()), "{tag}");
            assert_eq!(taken(store_into, i16::MIN + off - 1), refused, "{tag}");
            assert_eq!(taken(restore_into, i16::MAX - off), Ok(()), "{tag}");
            assert_eq!(taken(restore_into, i16::MAX - off + 1), refused, "{tag}");
        }
    }
}

#[test]
fn refusals_of_storing_and_restoring_are_in_order() {
    let ways: [(Way, i16); 2] = [(store_into, i16::MIN), (restore_into, i16::MAX)];
    for (way, far) in ways {
        let refused = |[first, second, jump]: [i16; 3], version: u8| {
            let conditional = (Tag::Conditional, first, second);
            let mut listing = listing_of_jumps([conditional, (Tag::Jump, jump, 0)]);
            listing[0] = version;
            moved(way, &listing, 0).unwrap_err()
        };
        assert_eq!(refused([far; 3], 2), refusal(30, 0, 0));
        assert_eq!(refused([far; 3], 1), refusal(33, 0, 0));
        assert_eq!(refused([0, far, far], 1), refusal(33, 0, 1));
        assert_eq!(refused([0, 0, far], 1), refusal(33, 1, 0));
        assert_eq!(refused([0; 3], 1), refusal(20, 0, 0));
    }
    let far = listing_of_jumps([(Tag::Jump, i16::MAX, 0)]);
    let stored = Stored::from_bytes(far).unwrap();
    assert_eq!(stored.restored(), Err(refusal(33, 0, 0)));
    let far = listing_of_jumps([(Tag::Jump, i16::MIN, 0)]);
    let listing = Listing::from_bytes(&far).unwrap();
    assert_eq!(listing.stored(), Err(refusal(33, 0, 0)));
}
