//! The way to a place: on good units it is that of a strict reader, on damaged ones it goes as far as it can.

mod common;

use common::{WHILE_FALSE, every_stmt, hex, nested_blocks, read_strictly, recorded, script};
use delzhomo::{Kind, Step, Unit};

fn names(unit: &Unit, place: usize) -> Vec<(&'static str, usize)> {
    let path = unit.path(place);
    path.iter()
        .map(|step| (step.kind.name(), step.offset))
        .collect()
}

fn names_of(digits: &str, place: usize) -> Vec<(&'static str, usize)> {
    names(&Unit::from_bytes(hex(digits)), place)
}

#[test]
fn every_node_is_found() {
    let unit = script(every_stmt()).encode().unwrap();
    for chain in read_strictly(unit.bytes()) {
        let &(_, place) = chain.last().unwrap();
        assert_eq!(names(&unit, place), chain);
        // its kind byte is inside it too
        assert_eq!(names(&unit, place + 4), chain);
    }
}

#[test]
fn all_nodes_at_once_have_the_same_paths() {
    let unit = script(every_stmt()).encode().unwrap();
    let nodes = unit.nodes();
    let places: Vec<usize> = nodes.iter().map(|step| step.offset).collect();
    let strict = read_strictly(unit.bytes());
    assert_eq!(nodes.len(), strict.len());
    assert!(places.is_sorted());
    for place in 0..unit.bytes().len() {
        let path = nodes.path(place);
        match places.binary_search(&place) {
            Ok(_) => assert_eq!(path, unit.path(place)),
            Err(_) => assert_eq!(path, []),
        }
    }
    assert!(Unit::from_bytes([]).nodes().is_empty());
    // nodes that are too deep are not gone into
    assert_eq!(Unit::from_bytes(nested_blocks(300)).nodes().len(), 200);
}

#[test]
fn every_byte_has_the_innermost_node_around_it() {
    let unit = script(every_stmt()).encode().unwrap();
    let nodes = read_strictly(unit.bytes());
    let end_of = |offset: usize| {
        let length = unit.bytes()[offset..offset + 4].try_into().unwrap();
        offset + 4 + u32::from_be_bytes(length) as usize
    };
    for place in 0..unit.bytes().len() {
        let around = nodes
            .iter()
            .rfind(|chain| {
                let &(_, offset) = chain.last().unwrap();
                offset <= place && place < end_of(offset)
            })
            .cloned();
        assert_eq!(names(&unit, place), around.unwrap_or_default(), "{place}");
    }
}

#[test]
fn every_node_of_the_recorded_units_is_found() {
    let mut count = 0;
    for unit in recorded("trial/recorded.txt") {
        let answer = unit.stage.or(unit.labelled).unwrap();
        if (1..=5).any(|number| answer.starts_with(&format!("refused {number} "))) {
            continue;
        }
        let bytes = Unit::from(unit.unit);
        for chain in read_strictly(bytes.bytes()) {
            let &(_, place) = chain.last().unwrap();
            assert_eq!(names(&bytes, place), chain, "{}", unit.name);
            count += 1;
        }
    }
    assert!(count > 10_000, "{count}");
}

#[test]
fn recorded_refusals_have_a_path() {
    for file in ["trial/cases.txt", "trial/long.txt", "trial/recorded.txt"] {
        for unit in recorded(file) {
            let answer = unit.stage.or(unit.labelled).unwrap();
            let words: Vec<&str> = answer.split_whitespace().collect();
            let ["refused", number, place, _] = words[..] else {
                continue;
            };
            let place = place.parse().unwrap();
            let path = Unit::from(unit.unit).path(place);
            let last = path.last().map(|step| step.offset);
            match number {
                // what does not fit can be a block or a missing part, which its node is named for
                "3" => assert!(last.is_none_or(|last| last <= place), "{}", unit.name),
                "4" => assert!(path.len() >= 200, "{}", unit.name),
                "1" | "32" => {}
                _ => assert_eq!(last, Some(place), "{}", unit.name),
            }
        }
    }
}

#[test]
fn example_a() {
    let unit = Unit::from_bytes(hex(WHILE_FALSE));
    let steps = [
        Step {
            kind: Kind::Stmt(3),
            offset: 10,
        },
        Step {
            kind: Kind::Stmt(8),
            offset: 26,
        },
    ];
    assert_eq!(unit.path(26), steps);
    assert_eq!(unit.path(22), steps[..1]);
    assert_eq!(unit.path(6), []);
    assert_eq!(unit.path(31), []);
    assert_eq!(unit.path(usize::MAX), []);
    assert_eq!(steps[0].to_string(), "While at 10");
}

#[test]
fn a_missing_part_belongs_to_its_node() {
    // a While without its block, refused at 20; a Break follows, which begins at the same byte
    let missing = "01 0000000F 00 0000000A 00000006 03 00000001 01";
    assert_eq!(names_of(missing, 20), [("While", 10)]);
    let followed = "01 00000014 00 0000000F 00000006 03 00000001 01 00000001 08";
    assert_eq!(names_of(followed, 20), [("While", 10)]);
    // a condition without its block, in the run of a Branches
    let arm = "01 00000014 00 0000000F 0000000B 04 00000005 00000001 01 00";
    assert_eq!(names_of(arm, 24), [("Branches", 10)]);
    // a While without its condition
    let bare = "01 0000000A 00 00000005 00000001 03";
    assert_eq!(names_of(bare, 15), [("While", 10)]);
}

#[test]
fn damaged_nodes_are_named_as_far_as_they_can_be() {
    // a Break whose length runs past the block
    let long = "01 0000000A 00 00000005 00000002 08";
    assert_eq!(names_of(long, 10), [("Break", 10)]);
    // an unknown kind
    let unknown = "01 0000000A 00 00000005 00000001 63";
    assert_eq!(names_of(unknown, 10), [("unknown", 10)]);
    // three bytes left over
    assert_eq!(names_of("01 00000008 00 00000003 000000", 10), []);
    assert_eq!(names_of("01", 10), []);
    assert_eq!(names_of("", 0), []);
}

#[test]
fn a_node_that_is_too_deep_is_the_last() {
    let unit = Unit::from_bytes(nested_blocks(300));
    let places: Vec<usize> = (0..201).map(|number| 10 + 9 * number).collect();
    let path: Vec<usize> = unit
        .path(10 + 9 * 200)
        .iter()
        .map(|step| step.offset)
        .collect();
    assert_eq!(path, places);
    // further down it goes no further
    assert_eq!(unit.path(10 + 9 * 250).len(), 200);
}

#[test]
fn damage_never_panics() {
    let whole = script(every_stmt()).encode().unwrap().into_bytes();
    for end in 0..whole.len() {
        let unit = Unit::from_bytes(&whole[..end]);
        for place in [0, end / 2, end, end + 1] {
            assert!(unit.path(place).len() <= 201);
        }
        assert!(unit.nodes().len() <= end / 5);
    }
    let mut bytes = whole.clone();
    for at in 0..whole.len() {
        for value in [0x00, 0x01, 0x7F, 0xFF] {
            bytes[at] = value;
            let unit = Unit::from_bytes(&bytes[..]);
            for place in [at, whole.len() - 1] {
                assert!(unit.path(place).len() <= 201);
            }
        }
        bytes[at] = whole[at];
    }
}
