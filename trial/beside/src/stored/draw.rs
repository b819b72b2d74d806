//! Random listings.

use delzhomo::listing_length;
use delzhomo::tag::Tag;
use oracle::random::Random;

use super::model::{CARRIERS, RECORD_LIMIT, used};
use crate::listing::{FRONT, RECORD, put_front};

/// How far from a limit a number may be that is drawn near it: farther than any number is moved.
const NEAR: usize = 12;

/// A listing; any of its fields may be too near a limit. One of 8,000 has as many records as a listing may have, or one more or less.
pub fn listing(random: &mut Random, number: usize) -> Vec<u8> {
    let count = match number % 100 {
        _ if number % 8_000 == 99 => return longest(random),
        0 => random.between(0, 2_000),
        1..=20 => random.between(0, 60),
        _ => random.between(0, 6),
    };
    // so that a refusal may come at any record, or not at all
    let odds = random.pick(&[1, 4, 40, 4_000]);
    let mut listing = vec![0; FRONT];
    listing.extend((0..count).flat_map(|_| record(random, odds)));
    put_front(&mut listing);
    listing
}

/// All are Nops but the last.
fn longest(random: &mut Random) -> Vec<u8> {
    let count = random.between(RECORD_LIMIT - 1, RECORD_LIMIT + 1);
    let mut listing = vec![0; listing_length(count - 1)];
    listing.extend(record(random, 1));
    put_front(&mut listing);
    listing
}

/// Half of them hold distances. Of those that do, one in `odds` is near a limit.
fn record(random: &mut Random, odds: usize) -> [u8; RECORD] {
    let tags: Vec<Tag> = Tag::all().collect();
    let tag = match random.once_in(2) {
        true => CARRIERS[random.between(0, CARRIERS.len() - 1)].tag,
        false => random.pick(&tags),
    };
    let mut record = [0; RECORD];
    record.fill_with(|| random.bits() as u8);
    record[0] = tag.number();
    for (bytes, _) in used(tag).into_iter().filter(|(_, is_used)| !is_used) {
        record[bytes].fill(0);
    }
    for carrier in CARRIERS.iter().filter(|carrier| carrier.tag == tag) {
        if random.once_in(odds) {
            carrier.field.put(&mut record, near_limit(random));
        }
    }
    record
}

fn near_limit(random: &mut Random) -> i16 {
    let far = random.between(0, NEAR) as i16;
    random.pick(&[i16::MIN + far, i16::MAX - far])
}

/// One that is cut, has a byte more, less or changed; or random bytes.
pub fn damaged(random: &mut Random, number: usize) -> Vec<u8> {
    let mut listing = listing(random, number);
    let any = random.between(0, listing.len() - 1);
    let byte = random.bits() as u8;
    match random.between(1, 8) {
        1 => return random_bytes(random),
        2 => listing.truncate(any),
        3 => listing.truncate(listing_length(any / RECORD).min(listing.len())),
        4 => listing.insert(any, byte),
        5 => drop(listing.remove(any)),
        6 => listing[any] = byte,
        7 => change_record(random, &mut listing, 0, 0),
        _ => change_record(random, &mut listing, 1, 17),
    }
    if listing.len() >= FRONT && random.once_in(2) {
        put_front(&mut listing);
    }
    listing
}

/// Gives a byte of some record another value: the one with the tag, or one of the fields.
fn change_record(random: &mut Random, listing: &mut [u8], first: usize, last: usize) {
    let count = (listing.len() - FRONT) / RECORD;
    if let Some(last_record) = count.checked_sub(1) {
        let start = listing_length(random.between(0, last_record));
        listing[start + random.between(first, last)] = random.bits() as u8;
    }
}

/// Up to 20 records, most of them with zeros, or some bytes more.
fn random_bytes(random: &mut Random) -> Vec<u8> {
    let more = random.pick(&[0, 0, 0, 1, RECORD - 1]);
    let length = listing_length(random.between(0, 20)) + more;
    let mut byte = || match random.once_in(60) {
        true => random.bits() as u8,
        false => 0,
    };
    let mut bytes: Vec<u8> = (0..length).map(|_| byte()).collect();
    if !random.once_in(4) {
        put_front(&mut bytes);
    }
    bytes
}
