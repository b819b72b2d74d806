//! Listings as instructions, against the recorded answers; nothing here is lowered.

mod common;

use common::{WHILE_FALSE_CODE, WHILE_FALSE_NODES, listing_of, listing_with, recorded};
use delzhomo::{Listing, Tag};

#[test]
fn example_a_is_typed() {
    let bytes = listing_of(WHILE_FALSE_CODE);
    let listing = Listing::as_far_as_good(&bytes);
    assert_eq!((listing.len(), listing.size()), (4, 10));
    let all: Vec<_> = listing.iter().collect();
    let tags = [Tag::JumpIfFalse, Tag::FalseConst, Tag::Jump, Tag::Jump];
    assert_eq!(all.iter().map(|each| each.tag).collect::<Vec<_>>(), tags);
    let targets: Vec<_> = all.iter().map(|each| each.target()).collect();
    assert_eq!(targets, [Some(10), None, Some(10), Some(0)]);
    assert_eq!(all[3].distance(), Some(-7));
    assert_eq!((all[3].index, all[3].start, all[3].end()), (3, 7, 10));
    assert_eq!(all[1].second_target(), None);
    assert_eq!(listing.to_string(), WHILE_FALSE_CODE);
}

#[test]
fn the_node_is_the_last_field_and_is_not_printed() {
    let bytes = listing_with(WHILE_FALSE_CODE, &WHILE_FALSE_NODES);
    assert_eq!(bytes[23..27], [0, 0, 0, 10]);
    let listing = Listing::as_far_as_good(&bytes);
    let nodes: Vec<u32> = listing.iter().map(|each| each.node).collect();
    assert_eq!(nodes, WHILE_FALSE_NODES);
    assert_eq!(listing.to_string(), WHILE_FALSE_CODE);
    let largest = listing_with(WHILE_FALSE_CODE, &[u32::MAX]);
    let first = Listing::as_far_as_good(&largest).iter().next().unwrap();
    assert_eq!(first.node, u32::MAX);
}

#[test]
fn recorded_code_is_printed_as_it_was() {
    let mut count = 0;
    for file in ["trial/cases.txt", "trial/recorded.txt"] {
        for unit in recorded(file) {
            let Some(code) = unit.stage.filter(|answer| answer.starts_with("code")) else {
                continue;
            };
            let bytes = listing_of(&code);
            let listing = Listing::as_far_as_good(&bytes);
            assert_eq!(listing.to_string(), code, "{}", unit.name);
            let ends = listing.iter().flat_map(|each| each.targets());
            let size = i64::from(listing.size());
            assert!(ends.into_iter().all(|target| (0..=size).contains(&target)));
            count += 1;
        }
    }
    assert!(count > 1_000, "{count}");
}

#[test]
fn damaged_listings_end_before_the_damage() {
    let whole = listing_of(WHILE_FALSE_CODE);
    for end in 0..=whole.len() {
        let listing = Listing::as_far_as_good(&whole[..end]);
        let records = end.saturating_sub(5) / 22;
        assert_eq!(listing.len(), records);
        assert_eq!(listing.iter().count(), records);
        assert_eq!(listing.iter().len(), records);
    }
    let mut bytes = whole;
    bytes[5 + 22 * 2] = 0x15;
    assert_eq!(Listing::as_far_as_good(&bytes).size(), 4);
}
