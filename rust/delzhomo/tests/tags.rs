//! The tags against the two texts that they are taken from.

mod common;

use std::collections::BTreeMap;

use common::text_of;
use delzhomo::Tag;

/// The entries of a table of the definitions, up to the zeros that fill it.
fn table(text: &str, name: &str) -> Vec<String> {
    let start = text.find(&format!("\n{name} =\n")).unwrap();
    let body = text[start..].split_once("=\n").unwrap().1;
    let body = body.split_once("replicate").unwrap().0;
    let mut entries: Vec<String> = body.split('∷').map(|entry| entry.trim().into()).collect();
    entries.pop();
    entries
}

#[test]
fn names_are_the_published_ones() {
    let published = text_of("trial/redscript/instr.rs");
    let mut names = BTreeMap::new();
    let mut lines = published.lines().map(str::trim);
    while let Some(line) = lines.next() {
        if let Some(number) = line.strip_prefix("#[byte(tag = 0x") {
            let number = u8::from_str_radix(&number[..2], 16).unwrap();
            let name = lines.find(|line| !line.starts_with("///")).unwrap();
            let name = name.split(|found: char| !found.is_alphanumeric()).next();
            names.insert(number, name.unwrap());
        }
    }
    for tag in Tag::all() {
        assert_eq!(names[&tag.number()], tag.name());
    }
}

#[test]
fn numbers_sizes_and_rows_are_those_of_the_definitions() {
    let text = text_of("crates/definitions/specs/Tag.antt");
    let sizes = table(&text, "sizes");
    let rows = table(&text, "rows");
    assert_eq!((sizes.len(), rows.len()), (104, 104));
    for number in 0..=u8::MAX {
        let size = sizes.get(usize::from(number)).map_or("0", String::as_str);
        let row = rows.get(usize::from(number)).map_or("o", String::as_str);
        match Tag::new(number) {
            Some(tag) => {
                assert_eq!(tag.size().to_string(), size, "{tag:?}");
                assert_eq!(row_of(tag), row, "{tag:?}");
                let line = format!("\n{tag} = {number:#04X}\n").replace("0X", "0x");
                assert!(text.contains(&line), "{tag:?}");
            }
            None => assert_eq!((size, row), ("0", "o"), "{number}"),
        }
    }
    assert_eq!(Tag::all().count(), 77);
}

/// The letter that the definitions have for the tag's row.
fn row_of(tag: Tag) -> &'static str {
    let uses = tag.fields();
    let row = (
        uses.small.is_some(),
        uses.first.is_some(),
        uses.second.is_some(),
        uses.line,
        uses.flags,
        uses.value.is_some(),
    );
    match row {
        (false, false, false, false, false, false) => "o",
        (false, false, false, false, false, true) => "v",
        (false, true, false, false, false, false) => "j",
        (false, true, false, false, false, true) => "s",
        (false, true, true, false, false, false) => "p",
        (true, false, false, false, false, true) => "c",
        (false, true, false, true, true, true) => "i",
        _ => "?",
    }
}

#[test]
fn constants_have_the_published_names() {
    assert_eq!(Tag::JumpIfFalse.number(), 0x20);
    assert_eq!(Tag::JumpIfFalse.to_string(), "JumpIfFalse");
    assert_eq!(format!("{:?}", Tag::Nop), "Tag(0x00 Nop)");
    assert_eq!(Tag::new(0x15), None);
}
