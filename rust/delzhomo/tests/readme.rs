//! The example that the project's README shows is the one that runs as a doc test.

mod common;

use common::text_of;

/// The lines between two others, each without its prefix; those without the prefix are left out.
fn between<'a>(text: &'a str, from: &str, to: &str, prefix: &str) -> Vec<&'a str> {
    let lines = text.lines().skip_while(|line| *line != from).skip(1);
    lines
        .take_while(|line| !line.starts_with(to))
        .filter_map(|line| line.strip_prefix(prefix))
        .collect()
}

#[test]
fn the_readme_shows_the_doc_test() {
    let (readme, crate_root) = (text_of("README.md"), text_of("rust/delzhomo/src/lib.rs"));
    let shown = between(&readme, "## From Rust", "`encode`", "    ");
    let mut run = between(&crate_root, "//! ```", "//! ```", "//! ");
    // lines that are run but not shown in the documentation either
    run.retain(|line| !line.starts_with('#'));
    assert!(shown.len() > 5, "{shown:?}");
    assert_eq!(shown, run);
}
