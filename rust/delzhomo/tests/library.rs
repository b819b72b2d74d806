//! The static library through this crate: answers, every refusal, and what buffers hold afterwards.

mod common;

use common::{
    WHILE_FALSE_CODE, WHILE_FALSE_NODES, call, every_const, every_stmt, listing_of, listing_with,
    nested_blocks, nops_in_a_loop, recorded, refusal, text_of, unit, while_false,
};
use delzhomo::tree::*;
use delzhomo::{
    Assembler, Instruction, Instructions, Label, Listing, Loc, Place, Refusal, Tag, Totals, Unit,
    check, listing_length, lower_into, measure, path_text, resolve_into, strip_into, view,
};

fn hex_unit(digits: &str) -> Unit {
    Unit::from_hex(digits).unwrap()
}

fn example(name: &str) -> Unit {
    hex_unit(&text_of(&format!("examples/{name}.hex")))
}

/// What the printed stage prints of a unit.
fn stage(assembler: &mut Assembler, unit: &[u8]) -> String {
    match assembler.assemble(unit) {
        Ok(listing) => listing.to_string(),
        Err(refusal) => format!("{}\n", refusal.line()),
    }
}

fn labelled(assembler: &mut Assembler, unit: &[u8]) -> String {
    match assembler.lower(unit) {
        Ok(listing) => listing.to_string(),
        Err(refusal) => format!("{}\n", refusal.line()),
    }
}

const CALL_CODE: &str = "\
code 9 35
0 29 0 35 0 0 0 0000000000000000
3 63 0 0 0 0 0 0000000000000000
4 19 0 0 0 0 0 0000000000000004
13 24 0 22 0 7 0 0000000000000005
28 21 0 4 0 0 0 0000000000000000
31 13 0 0 0 0 0 0000000000000000
32 00 0 0 0 0 0 0000000000000000
33 00 0 0 0 0 0 0000000000000000
34 26 0 0 0 0 0 0000000000000000
";

const SWITCH_CODE: &str = "\
code 11 37
0 1C 0 12 0 0 0 0000000000000009
11 00 0 0 0 0 0 0000000000000000
12 1D 0 6 16 0 0 0000000000000000
17 00 0 0 0 0 0 0000000000000000
18 1D 0 6 16 0 0 0000000000000000
23 00 0 0 0 0 0 0000000000000000
24 1E 0 0 0 0 0 0000000000000000
25 1F 0 4 0 0 0 0000000000000000
28 01 0 0 0 0 0 0000000000000000
29 06 0 0 0 0 0 0000000001020304
34 1F 0 3 0 0 0 0000000000000000
";

#[test]
fn the_examples() {
    let mut assembler = Assembler::new();
    let expected = [
        ("while-false", WHILE_FALSE_CODE),
        ("call", CALL_CODE),
        ("switch-mid-default", SWITCH_CODE),
        ("refused-in-reading", "refused 3 20 0\n"),
        ("refused-in-the-walk", "refused 10 10 0\n"),
        ("too-distant", "refused 32 0 0\n"),
    ];
    for (name, answer) in expected {
        let unit = example(name);
        assert_eq!(stage(&mut assembler, unit.bytes()), answer, "{name}");
    }
}

#[test]
fn the_recorded_answers() {
    let mut assembler = Assembler::new();
    let mut count = 0;
    for file in ["trial/cases.txt", "trial/long.txt", "trial/recorded.txt"] {
        for unit in recorded(file) {
            if let Some(answer) = unit.stage {
                assert_eq!(stage(&mut assembler, &unit.unit), answer, "{}", unit.name);
                count += 1;
            }
            if let Some(answer) = unit.labelled {
                let found = labelled(&mut assembler, &unit.unit);
                assert_eq!(found, answer, "{}", unit.name);
                count += 1;
            }
        }
    }
    assert!(count > 2_000, "{count}");
}

#[test]
fn an_encoded_tree_is_never_refused_for_its_form() {
    let refused_in_walk = |refusal: Refusal| refusal.number >= 10;
    for stmt in every_stmt() {
        let unit = unit([stmt.clone()]);
        if let Err(refusal) = measure(&unit) {
            assert!(refused_in_walk(refusal), "{stmt:?}: {refusal}");
        }
    }
}

#[test]
fn a_listing_is_typed() {
    let mut assembler = Assembler::new();
    let listing = assembler.assemble(while_false()).unwrap();
    let targets: Vec<_> = listing.iter().map(|each| each.target()).collect();
    assert_eq!(targets, [Some(10), None, Some(10), Some(0)]);
    assert_eq!(check(listing.bytes()), Ok(4));
    let bytes = listing.bytes().to_vec();
    assert_eq!(
        Listing::from_bytes(&bytes).unwrap().to_string(),
        WHILE_FALSE_CODE
    );
}

/// The tag and the path of the node of each instruction.
fn emitted(unit: &Unit) -> Vec<(Tag, String)> {
    let mut assembler = Assembler::new();
    let listing = assembler.assemble(unit).unwrap();
    let nodes = unit.nodes();
    let path = |place| path_text(&nodes.path(place));
    listing
        .iter()
        .map(|each| (each.tag, path(each.node as usize)))
        .collect()
}

#[test]
fn instructions_have_the_node_that_emitted_them() {
    let expected = [
        (Tag::JumpIfFalse, "While at 10"),
        (Tag::FalseConst, "While at 10 > Const at 15"),
        (Tag::Jump, "While at 10 > Break at 26"),
        (Tag::Jump, "While at 10"),
    ];
    let expected = expected.map(|(tag, path)| (tag, path.to_string()));
    assert_eq!(emitted(&while_false()), expected);
    // "for a case's SwitchLabel that is the Switch statement, for a Skip the call"
    let of = |name: &str, tag: Tag| {
        let all = emitted(&example(name)).into_iter();
        let found = all.filter(|each| each.0 == tag).map(|each| each.1);
        found.collect::<Vec<_>>()
    };
    let labels = of("switch-mid-default", Tag::SwitchLabel);
    assert_eq!(labels, ["Switch at 10"; 2]);
    let skips = of("call", Tag::Skip);
    assert_eq!(skips, ["Expr at 10 > InstanceCall at 15"]);
    // the Nops of absent parameters are the call's too
    assert_eq!(of("call", Tag::Nop), ["Expr at 10 > InstanceCall at 15"; 2]);
}

#[test]
fn every_instruction_of_the_recorded_units_has_a_node() {
    let mut assembler = Assembler::new();
    let mut count = 0;
    for recorded in recorded("trial/recorded.txt") {
        let unit = Unit::from(recorded.unit);
        let Ok(lowered) = assembler.lower(&unit) else {
            continue;
        };
        let labelled: Vec<u32> = lowered.iter().map(|each| each.node).collect();
        let nodes = unit.nodes();
        for &place in &labelled {
            let last = nodes.path(place as usize).last().map(|step| step.offset);
            assert_eq!(last, Some(place as usize), "{}", recorded.name);
            count += 1;
        }
        let resolved = assembler.assemble(&unit).unwrap();
        assert!(resolved.iter().map(|each| each.node).eq(labelled));
    }
    assert!(count > 10_000, "{count}");
}

#[test]
fn labels_are_in_the_table() {
    let mut assembler = Assembler::new();
    let labelled = assembler.lower(while_false()).unwrap();
    assert_eq!(labelled.labels(), [0, 10]);
    let jump = labelled.iter().next().unwrap();
    assert_eq!((jump.tag, jump.first), (Tag::JumpIfFalse, Some(Label(1))));
    assert_eq!(labelled.mark(Label(1)), Some(10));
    assert_eq!(labelled.mark(Label(2)), None);
    // Branches without a branch: its first label is never marked
    let branches = Stmt::Branches {
        branches: vec![],
        default: None,
    };
    let labelled = assembler.lower(unit([branches])).unwrap();
    assert!(labelled.is_empty());
    assert_eq!(labelled.mark(Label(0)), None);
    assert_eq!(labelled.mark(Label(1)), Some(0));
}

#[test]
fn totals() {
    let expected = Totals {
        records: 4,
        labels: 2,
        size: 10,
    };
    assert_eq!(measure(while_false()), Ok(expected));
    let [records, labels, size] = [0; 3];
    let nothing = Totals {
        records,
        labels,
        size,
    };
    assert_eq!(measure(unit([])), Ok(nothing));
}

/// Branches with so many branches that are all empty.
fn branches(count: usize) -> Unit {
    let branch = ConditionalBlock::new(Expr::Nop, []);
    unit([Stmt::Branches {
        branches: vec![branch; count],
        default: None,
    }])
}

fn construct(count: usize) -> Unit {
    let args = vec![Expr::Nop; count];
    unit([Expr::Construct { class: 1, args }.into()])
}

/// A call with a flagged argument at this index: a reference to a temporary value.
fn flagged(index: usize) -> Unit {
    let as_ref = Expr::Intrinsic(IntrinsicCall::new(Intrinsic::AsRef, 1, [Expr::i32(7)]));
    let mut args = vec![Expr::Nop; index];
    args.push(as_ref);
    unit([Expr::FreeCall(call(index + 1, args)).into()])
}

fn wrong_types() -> Unit {
    let call = IntrinsicCall {
        type_args: 2,
        ..IntrinsicCall::new(Intrinsic::Equals, 1, [])
    };
    unit([Expr::Intrinsic(call).into()])
}

/// A unit for each number that reading or the walk refuses with, and the refusal.
fn refused_units() -> Vec<(Unit, Refusal)> {
    // a free call with no parameter and one argument
    let call = "01 00000024 00 0000001F 0000001B 01 00000016 0D 00000001 00000002 0001 00 00 00000005 00000001 01";
    vec![
        (hex_unit("01"), refusal(1, 0, 0)),
        (
            hex_unit("01 0000000A 00 00000005 00000001 0B"),
            refusal(2, 10, 0),
        ),
        (example("refused-in-reading"), refusal(3, 20, 0)),
        (Unit::from(nested_blocks(201)), refusal(4, 10 + 9 * 200, 0)),
        (hex_unit(call), refusal(5, 15, 0)),
        (unit([Stmt::Break]), refusal(10, 10, 0)),
        (unit([Stmt::Continue]), refusal(11, 10, 0)),
        (construct(256), refusal(12, 15, 256)),
        // front and block 10, statement 5, call 5 and 12, its 17 marks, the run's length 4, and 16 Nops
        (flagged(16), refusal(13, 10 + 5 + 17 + 17 + 4 + 16 * 5, 17)),
        (wrong_types(), refusal(14, 15, 0)),
        (branches(65_535), refusal(15, 10, 0)),
    ]
}

#[test]
fn reading_and_the_walk_refuse() {
    let mut assembler = Assembler::new();
    for (unit, expected) in refused_units() {
        assert_eq!(measure(&unit), Err(expected));
        assert_eq!(assembler.lower(&unit).unwrap_err(), expected);
        assert_eq!(assembler.assemble(&unit).unwrap_err(), expected);
    }
}

#[test]
fn every_refusal_has_a_path_that_ends_at_its_place() {
    for (unit, refusal) in refused_units() {
        let path = unit.path(refusal.place);
        match refusal.number {
            1 => assert_eq!(refusal.place(), Place::Whole),
            // a missing block: the node that lacks it
            3 => assert_eq!(path.last().map(|step| step.offset), Some(10)),
            _ => assert_eq!(path.last().map(|step| step.offset), Some(refusal.place)),
        }
    }
}

#[test]
fn one_less_is_not_refused() {
    let mut assembler = Assembler::new();
    for unit in [
        Unit::from(nested_blocks(200)),
        construct(255),
        flagged(15),
        nops_in_a_loop(32_760),
    ] {
        assert!(assembler.assemble(&unit).is_ok());
    }
    assert_eq!(measure(branches(65_534)).unwrap().labels, 65_536);
    let invoke = assembler.assemble(flagged(15)).unwrap().iter().next();
    assert_eq!(invoke.unwrap().flags, 1 << 15);
}

/// Lowers into buffers of these lengths, filled with a pattern, and says what is in them.
fn lower_with(
    unit: &Unit,
    bytes: usize,
    words: usize,
) -> (Result<Totals, Refusal>, Vec<u8>, Vec<u32>) {
    let mut out = vec![0xA5; bytes];
    let mut marks = vec![0xA5A5_A5A5; words];
    let answer = lower_into(unit, &mut out, &mut marks);
    (answer, out, marks)
}

#[test]
fn short_buffers_are_refused_and_stay_as_they_were() {
    let unit = while_false();
    let length = listing_length(4);
    for (bytes, words, number) in [
        (0, 0, 20),
        (length - 1, 2, 20),
        (length - 1, 1, 20),
        (length, 1, 21),
        (length + 9, 0, 21),
    ] {
        let (answer, out, marks) = lower_with(&unit, bytes, words);
        assert_eq!(answer, Err(refusal(number, 0, 0)));
        assert!(out.iter().all(|&byte| byte == 0xA5));
        assert!(marks.iter().all(|&word| word == 0xA5A5_A5A5));
    }
}

#[test]
fn refused_units_leave_buffers_as_they_were() {
    for (unit, expected) in refused_units() {
        let (answer, out, marks) = lower_with(&unit, 1_000, 100);
        assert_eq!(answer, Err(expected));
        assert!(out.iter().all(|&byte| byte == 0xA5));
        assert!(marks.iter().all(|&word| word == 0xA5A5_A5A5));
    }
}

#[test]
fn what_is_behind_stays_as_it_was() {
    let length = listing_length(4);
    let (answer, out, marks) = lower_with(&while_false(), length + 30, 5);
    assert_eq!(answer.map(|totals| totals.records), Ok(4));
    assert!(out[length..].iter().all(|&byte| byte == 0xA5));
    assert_eq!(marks, [0, 10, 0xA5A5_A5A5, 0xA5A5_A5A5, 0xA5A5_A5A5]);
    let mut resolved = vec![0x5A; length + 30];
    assert_eq!(resolve_into(&out[..length], &marks, &mut resolved), Ok(4));
    let expected = listing_with(WHILE_FALSE_CODE, &WHILE_FALSE_NODES);
    assert_eq!(resolved[..length], expected);
    assert!(resolved[length..].iter().all(|&byte| byte == 0x5A));
}

#[test]
fn resolving_refuses_and_leaves_its_buffer_as_it_was() {
    let (answer, listing, marks) = lower_with(&while_false(), listing_length(4), 2);
    assert!(answer.is_ok());
    let far = 4_294_967_294;
    let mut no_listing = listing.clone();
    no_listing[0] = 2;
    let long = listing.len();
    let cases: [(&[u8], &[u32], usize, Refusal); 6] = [
        (&no_listing, &marks, long, refusal(30, 0, 0)),
        (&listing, &[0], long, refusal(31, 0, 0)),
        (&listing, &[u32::MAX, 10], long, refusal(31, 3, 0)),
        (&listing, &[0, far], long, refusal(32, 0, 0)),
        (&listing, &marks, long - 1, refusal(20, 0, 0)),
        (&listing, &marks, 0, refusal(20, 0, 0)),
    ];
    for (listing, marks, room, expected) in cases {
        let mut out = vec![0x5A; room];
        assert_eq!(resolve_into(listing, marks, &mut out), Err(expected));
        assert!(out.iter().all(|&byte| byte == 0x5A));
    }
}

#[test]
fn the_second_label_is_named() {
    let conditional = Expr::Conditional {
        condition: Box::new(Expr::Nop),
        then: Box::new(Expr::Nop),
        otherwise: Box::new(Expr::Nop),
    };
    let unit = unit([conditional.into()]);
    let (answer, listing, marks) = lower_with(&unit, listing_length(4), 2);
    assert_eq!(answer.map(|totals| totals.labels), Ok(2));
    let mut out = vec![0; listing.len()];
    let refused = resolve_into(&listing, &marks[..1], &mut out).unwrap_err();
    assert_eq!(refused, refusal(31, 0, 1));
    assert!(refused.to_string().contains("second label of record 0"));
}

#[test]
fn too_distant() {
    let mut assembler = Assembler::new();
    let refused = assembler.assemble(nops_in_a_loop(32_761)).unwrap_err();
    assert_eq!(refused, refusal(32, 0, 0));
    assert_eq!(refused.place(), Place::Record(0));
    // it has code all the same, as far as labels go
    assert!(assembler.lower(nops_in_a_loop(32_761)).is_ok());
}

#[test]
fn listings_are_checked_and_seen() {
    let listing = listing_of(WHILE_FALSE_CODE);
    assert_eq!(check(&listing), Ok(4));
    assert_eq!(view(&listing, 3), Ok(&listing[listing_length(3)..]));
    assert_eq!(view(&listing, 4), Err(refusal(22, 4, 0)));
    assert_eq!(view(&listing, usize::MAX), Err(refusal(22, usize::MAX, 0)));
    for end in 0..listing.len() {
        assert_eq!(check(&listing[..end]), Err(refusal(30, 0, 0)));
        assert_eq!(view(&listing[..end], 0), Err(refusal(30, 0, 0)));
        assert!(Listing::from_bytes(&listing[..end]).is_err());
    }
    // any node
    let listing_with_nodes = listing_with(WHILE_FALSE_CODE, &[u32::MAX; 4]);
    assert_eq!(check(&listing_with_nodes), Ok(4));
    // an unused field that is not 0, and a tag that is not emitted
    for (at, value) in [(6, 1), (5, 0x15)] {
        let mut damaged = listing.clone();
        damaged[at] = value;
        assert_eq!(check(&damaged), Err(refusal(30, 0, 0)));
    }
}

#[test]
fn an_assembler_is_used_again_after_anything() {
    let mut assembler = Assembler::new();
    for (unit, _) in refused_units() {
        assert!(assembler.assemble(unit).is_err());
        let again = stage(&mut assembler, while_false().bytes());
        assert_eq!(again, WHILE_FALSE_CODE);
    }
    assert_eq!(stage(&mut assembler, unit([]).bytes()), "code 0 0\n");
}

#[test]
fn a_stripped_constant_is_the_least_of_its_class() {
    let while_true = hex_unit(&common::WHILE_FALSE.replace("02 0F 00", "02 0F 01"));
    assert_ne!(while_true, while_false());
    assert_eq!(while_true.stripped(), while_false());
    let returning = |value: Const| unit([Stmt::Return(Some(Expr::Const(value)))]);
    let stripped = |value: i32| returning(Const::I32(value)).stripped();
    for (value, least) in [(0, 0), (1, 0), (2, 2), (-1, 2), (i32::MIN, 2), (256, 2)] {
        assert_eq!(stripped(value), returning(Const::I32(least)), "{value}");
    }
    for value in every_const() {
        let stripped = returning(value).stripped();
        let all = returning(value).into_bytes().into_iter();
        // front and block 10, Return's length, kind and mark 6, Const's length, kind and byte 6
        let kept = all
            .enumerate()
            .map(|(at, byte)| if at < 22 { byte } else { 0 });
        let mut kept: Vec<u8> = kept.collect();
        if let Const::I32(_) = value {
            *kept.last_mut().unwrap() = 2;
        }
        assert_eq!(stripped.bytes(), kept, "{value:?}");
    }
}

#[test]
fn a_stripped_call_has_no_function_name_and_line() {
    let named = |function, name, line| {
        let mut call = call(2, [Expr::Nop]);
        call.callee.function = function;
        call.callee.name = name;
        call.callee.line = line;
        unit([Expr::FreeCall(call).into()])
    };
    assert_eq!(named(5, 6, 7).stripped(), named(0, 0, 0));
    let longest = named(u32::MAX, u32::MAX, u16::MAX);
    assert_eq!(longest.stripped(), named(0, 0, 0));
    // its flags, parameters and arguments stay
    let other = unit([Expr::FreeCall(call(3, [Expr::Nop])).into()]);
    assert_ne!(other.stripped(), named(0, 0, 0));
}

#[test]
fn a_switchs_default_index_stays() {
    let switch = |scrutinee_type, default_index| {
        unit([Stmt::Switch {
            scrutinee_type,
            scrutinee: Expr::Nop,
            cases: vec![],
            default_index,
            default: None,
        }])
    };
    assert_eq!(switch(7, 3).stripped(), switch(0, 3));
}

#[test]
fn a_unit_is_stripped_as_far_as_it_is_read() {
    // NewInstance of class 7, then a statement of no kind with the same class in it
    let text = |class: &str| {
        format!(
            "01 00000021 00 0000001C 0000000A 01 00000005 04 {class} 0000000A 0B 00000005 04 00000007"
        )
    };
    let unit = hex_unit(&text("00000007"));
    assert_eq!(measure(&unit), Err(refusal(2, 24, 0)));
    assert_eq!(unit.stripped(), hex_unit(&text("00000000")));
    // a Bool that is none stays refused
    let with_bool = |byte: &str| hex_unit(&common::WHILE_FALSE.replace("02 0F 00", byte));
    let stripped = with_bool("02 0F 03").stripped();
    assert_eq!(stripped, with_bool("02 0F 02"));
    assert_eq!(measure(stripped), measure(with_bool("02 0F 03")));
    for bytes in [&[][..], &[2], &[1, 0, 0, 0, 9, 0, 7]] {
        assert_eq!(Unit::from_bytes(bytes).stripped().bytes(), bytes);
    }
}

#[test]
fn stripping_into_a_lent_buffer() {
    let unit = example("call");
    let length = unit.bytes().len();
    for room in [0, 1, length - 1] {
        let mut out = vec![0xA5; room];
        assert_eq!(strip_into(&unit, &mut out), Err(refusal(20, 0, 0)));
        assert!(out.iter().all(|&byte| byte == 0xA5));
    }
    for spare in [0, 9] {
        let mut out = vec![0xA5; length + spare];
        assert_eq!(strip_into(&unit, &mut out), Ok(length));
        assert_eq!(out[..length], *unit.stripped().bytes());
        assert!(out[length..].iter().all(|&byte| byte == 0xA5));
    }
    assert_eq!(strip_into([], &mut []), Ok(0));
}

/// All that stripping leaves of a unit's answers: totals, label table, and of each record what does not hang on names and numbers.
type Left<L> = Vec<(u32, u32, Option<L>, Option<L>, u32)>;

fn left<L: Loc>(instructions: Instructions<'_, L>) -> Left<L> {
    let left = |each: Instruction<L>| (each.start, each.end(), each.first, each.second, each.node);
    instructions.map(left).collect()
}

type Answers = (
    Result<Totals, Refusal>,
    Result<(Vec<u32>, Left<Label>), Refusal>,
    Result<Left<i16>, Refusal>,
);

fn answers(assembler: &mut Assembler, unit: &Unit) -> Answers {
    let lowered = assembler.lower(unit);
    let lowered = lowered.map(|lowered| (lowered.labels().to_vec(), left(lowered.iter())));
    let resolved = assembler.assemble(unit).map(|code| left(code.iter()));
    (measure(unit), lowered, resolved)
}

#[test]
fn a_stripped_unit_has_the_same_answers() {
    let mut assembler = Assembler::new();
    let mut units: Vec<Unit> = refused_units().into_iter().map(|each| each.0).collect();
    units.extend(every_stmt().into_iter().map(|stmt| unit([stmt])));
    units.extend(["call", "switch-mid-default", "too-distant"].map(example));
    let recorded = recorded("trial/recorded.txt").into_iter();
    units.extend(recorded.map(|each| Unit::from(each.unit)));
    let mut changed = 0;
    for unit in units {
        let stripped = unit.stripped();
        assert_eq!(stripped.bytes().len(), unit.bytes().len());
        assert_eq!(stripped.stripped(), stripped);
        let found = answers(&mut assembler, &stripped);
        assert_eq!(found, answers(&mut assembler, &unit), "{}", unit.to_hex());
        changed += usize::from(stripped != unit);
    }
    assert!(changed > 1_000, "{changed}");
}
