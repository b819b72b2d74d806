//! The C header and the declarations in ffi.rs: the same functions with as many parameters of the same types.

mod common;

use common::text_of;

/// Names and parameters of all functions whose names begin as the library's do. A parameter is written as pointer, constness, type.
fn functions(text: &str, parameter: fn(&str) -> String) -> Vec<(String, Vec<String>)> {
    let mut found = Vec::new();
    for part in text.split("delzhomo_").skip(1) {
        let Some((name, rest)) = part.split_once('(') else {
            continue;
        };
        let parameters = rest.split_once(')').unwrap().0;
        let parameters = parameters
            .split(',')
            .map(str::trim)
            .filter(|each| !each.is_empty())
            .map(parameter);
        found.push((name.into(), parameters.collect()));
    }
    found
}

/// `const uint8_t *unit` as `unit: *const u8`.
fn from_c(parameter: &str) -> String {
    let spaced = parameter.replace('*', " * ");
    let words: Vec<&str> = spaced.split_whitespace().collect();
    let typ = |name: &str| match name {
        "uint8_t" => "u8",
        "uint32_t" => "u32",
        "size_t" => "usize",
        other => panic!("{other}"),
    };
    match words[..] {
        ["const", name, "*", this] => format!("{this}: *const {}", typ(name)),
        [name, "*", this] => format!("{this}: *mut {}", typ(name)),
        [name, this] => format!("{this}: {}", typ(name)),
        _ => panic!("{parameter}"),
    }
}

#[test]
fn declarations_agree() {
    let header = text_of("include/delzhomo.h");
    let rust = text_of("rust/delzhomo/src/ffi.rs");
    let declared = rust.split_once("unsafe extern \"C\" {").unwrap().1;
    let declared = declared.split_once("\n}\n").unwrap().0;
    let in_c = functions(&header, from_c);
    let in_rust = functions(declared, str::to_string);
    let names: Vec<&str> = in_c.iter().map(|(name, _)| name.as_str()).collect();
    assert_eq!(
        names,
        [
            "measure", "lower", "resolve", "check", "view", "strip", "store", "restore"
        ]
    );
    assert_eq!(in_c, in_rust);
    let counts: Vec<usize> = in_c.iter().map(|(_, all)| all.len()).collect();
    assert_eq!(counts, [5, 9, 9, 5, 6, 7, 7, 7]);
    // each answers with a bool
    assert_eq!(header.matches("\nbool delzhomo_").count(), in_c.len());
    assert_eq!(declared.matches(") -> bool;").count(), in_rust.len());
}

#[test]
fn every_call_has_its_reason_and_no_other_file_is_unsafe() {
    let ffi = text_of("rust/delzhomo/src/ffi.rs");
    assert_eq!(ffi.matches("// SAFETY:").count(), 6);
    assert_eq!(ffi.matches("unsafe {").count(), 6);
    for file in [
        "lib", "draw", "encode", "kind", "listing", "path", "refusal", "stored", "tag", "tree",
        "unit",
    ] {
        let text = text_of(&format!("rust/delzhomo/src/{file}.rs"));
        assert!(!text.contains("unsafe {"), "{file}");
    }
}
