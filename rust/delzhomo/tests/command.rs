//! The command line tool, as it is run.

mod common;

use std::io::Write;
use std::path::Path;
use std::process::{Command, Stdio};

use common::{
    WHILE_FALSE, WHILE_FALSE_CODE, WHILE_FALSE_NODES, hex, listing_of, listing_with, repository,
};
use delzhomo::Unit;

struct Ran {
    status: i32,
    stdout: Vec<u8>,
    stderr: String,
}

impl Ran {
    fn text(&self) -> &str {
        str::from_utf8(&self.stdout).unwrap()
    }
}

fn run(words: &[&str], input: &[u8]) -> Ran {
    let mut child = Command::new(env!("CARGO_BIN_EXE_delzhomo"))
        .args(words)
        .stdin(Stdio::piped())
        .stdout(Stdio::piped())
        .stderr(Stdio::piped())
        .spawn()
        .unwrap();
    // a tool that refuses its arguments may end before it has read anything
    let _ = child.stdin.take().unwrap().write_all(input);
    let output = child.wait_with_output().unwrap();
    Ran {
        status: output.status.code().unwrap(),
        stdout: output.stdout,
        stderr: String::from_utf8(output.stderr).unwrap(),
    }
}

fn example(name: &str) -> String {
    let path = repository(&format!("examples/{name}.hex"));
    path.to_str().unwrap().into()
}

#[test]
fn stage_prints_the_documents_form() {
    let ran = run(&["stage", &example("while-false")], b"");
    assert_eq!(
        (ran.status, ran.text(), ran.stderr.as_str()),
        (0, WHILE_FALSE_CODE, "")
    );
}

#[test]
fn units_come_from_standard_input_raw_or_in_text() {
    let raw = run(&["stage", "-"], &hex(WHILE_FALSE));
    assert_eq!((raw.status, raw.text()), (0, WHILE_FALSE_CODE));
    let text = run(&["stage", "-"], WHILE_FALSE.as_bytes());
    assert_eq!((text.status, text.text()), (0, WHILE_FALSE_CODE));
    let forced = run(&["stage", "--raw", "-"], WHILE_FALSE.as_bytes());
    assert_eq!((forced.status, forced.text()), (1, "refused 1 0 0\n"));
    let no_text = run(&["stage", "--hex", "-"], &hex(WHILE_FALSE));
    assert_eq!((no_text.status, no_text.text()), (2, ""));
    let empty = run(&["stage", "-"], b"");
    assert_eq!((empty.status, empty.text()), (1, "refused 1 0 0\n"));
}

#[test]
fn refusals_are_explained_with_the_path() {
    let ran = run(&["stage", &example("refused-in-reading")], b"");
    assert_eq!((ran.status, ran.text()), (1, "refused 3 20 0\n"));
    assert!(ran.stderr.contains("byte 20"), "{}", ran.stderr);
    assert!(ran.stderr.contains("path: While at 10"), "{}", ran.stderr);
    // a continue in a switch, but in no loop
    let switch = "01 0000002A 00 00000025 00000021 05 00000009 00000001 01 00000000 00 \
                  0000000E 00000001 01 00000005 00000001 09";
    let ran = run(&["stage", "-"], switch.as_bytes());
    assert_eq!((ran.status, ran.text()), (1, "refused 11 42 0\n"));
    assert!(
        ran.stderr.contains("path: Switch at 10 > Continue at 42"),
        "{}",
        ran.stderr
    );
}

#[test]
fn a_long_unit_is_taken_and_its_distance_refused() {
    let ran = run(&["stage", &example("too-distant")], b"");
    assert_eq!((ran.status, ran.text()), (1, "refused 32 0 0\n"));
    assert!(
        ran.stderr
            .contains("record 0: JumpIfFalse at 0\n  path: While at 10"),
        "{}",
        ran.stderr
    );
    let ran = run(&["labelled", &example("too-distant")], b"");
    assert_eq!(ran.status, 0);
    assert!(ran.text().starts_with("labelled "));
}

#[test]
fn labelled_prints_labels_and_marks() {
    let ran = run(&["labelled", &example("while-false")], b"");
    let expected = "\
labelled 4 10
0 20 0 1 0 0 0 0000000000000000
3 14 0 0 0 0 0 0000000000000000
4 1F 0 1 0 0 0 0000000000000000
7 1F 0 0 0 0 0 0000000000000000
labels 2
0
10
";
    assert_eq!((ran.status, ran.text()), (0, expected));
}

#[test]
fn check_and_view() {
    let file = example("while-false");
    let ran = run(&["check", &file], b"");
    assert_eq!(
        (ran.status, ran.text()),
        (0, "records 4 labels 2 size 10\n")
    );
    let ran = run(&["view", &file, "3"], b"");
    assert_eq!(
        (ran.status, ran.text()),
        (0, "7 1F 0 -7 0 0 0 0000000000000000\n")
    );
    let ran = run(&["view", &file, "4"], b"");
    assert_eq!((ran.status, ran.text()), (1, "refused 22 4 0\n"));
}

#[test]
fn listings_are_written_and_taken() {
    let listing = run(&["stage", "--bytes", &example("while-false")], b"").stdout;
    assert_eq!(listing.len(), 5 + 22 * 4);
    let ran = run(&["check", "--listing", "-"], &listing);
    assert_eq!((ran.status, ran.text()), (0, "records 4\n"));
    let ran = run(&["view", "--listing", "-", "0"], &listing);
    assert_eq!(
        (ran.status, ran.text()),
        (0, "0 20 0 10 0 0 0 0000000000000000\n")
    );
    let ran = run(&["check", "--listing", "-"], &listing[1..]);
    assert_eq!((ran.status, ran.text()), (1, "refused 30 0 0\n"));
    let drawn = run(&["draw", "--listing", "-"], &listing);
    assert_eq!(
        drawn.stdout,
        run(&["draw", &example("while-false")], b"").stdout
    );
}

#[test]
fn nodes_stand_beside_instructions_on_request() {
    let file = example("while-false");
    let staged = "\
code 4 10
0 20 0 10 0 0 0 0000000000000000  While at 10
3 14 0 0 0 0 0 0000000000000000  While at 10 > Const at 15
4 1F 0 6 0 0 0 0000000000000000  While at 10 > Break at 26
7 1F 0 -7 0 0 0 0000000000000000  While at 10
";
    let ran = run(&["stage", "--nodes", &file], b"");
    assert_eq!((ran.status, ran.text()), (0, staged));
    let labelled = "\
labelled 4 10
0 20 0 1 0 0 0 0000000000000000  While at 10
3 14 0 0 0 0 0 0000000000000000  While at 10 > Const at 15
4 1F 0 1 0 0 0 0000000000000000  While at 10 > Break at 26
7 1F 0 0 0 0 0 0000000000000000  While at 10
labels 2
0
10
";
    let ran = run(&["labelled", "--nodes", &file], b"");
    assert_eq!((ran.status, ran.text()), (0, labelled));
    let ran = run(&["view", "--nodes", &file, "2"], b"");
    assert_eq!(
        (ran.status, ran.text().lines().next()),
        (0, staged.lines().nth(3))
    );
    let drawn = "\
╭─┬─>  0  JumpIfFalse     +10 → 10  While at 10
│ │    3  FalseConst                While at 10 > Const at 15
├─┼──  4  Jump            +6 → 10   While at 10 > Break at 26
│ ╰──  7  Jump            -7 → 0    While at 10
╰───> 10  end
";
    let ran = run(&["draw", "--nodes", &file], b"");
    assert_eq!((ran.status, ran.text()), (0, drawn));
}

#[test]
fn a_stripped_unit_is_printed_as_a_unit() {
    let file = example("call");
    let ran = run(&["strip", &file], b"");
    // function, name, line and the constant; the parameter's index too
    let stripped = "\
01 00 00 00 34 00 00 00 00 2F 00 00 00 2B 01 00
00 00 26 0F 01 00 00 00 06 0B 02 00 00 00 00 00
00 00 00 00 00 00 00 00 00 08 03 01 00 01 00 00
00 07 00 00 00 03 02 0F 00
";
    assert_eq!((ran.status, ran.text()), (0, stripped));
    let again = run(&["strip", "-"], &ran.stdout);
    assert_eq!((again.status, again.text()), (0, stripped));
    let bytes = run(&["strip", "--bytes", &file], b"");
    assert_eq!((bytes.status, bytes.stdout), (0, hex(stripped)));
    let check = |file: &str, input: &[u8]| run(&["check", file], input).stdout;
    assert_eq!(check("-", &ran.stdout), check(&file, b""));
    // what is no unit is no refusal here
    let ran = run(&["strip", "-"], b"02 0A");
    assert_eq!((ran.status, ran.text()), (0, "02 0A\n"));
}

const STORED: &str = "\
stored 4 10
0 20 0 7 0 0 0 0000000000000000
3 14 0 0 0 0 0 0000000000000000
4 1F 0 3 0 0 0 0000000000000000
7 1F 0 -10 0 0 0 0000000000000000
";

#[test]
fn stored_prints_what_the_loader_stores() {
    let file = example("while-false");
    let ran = run(&["stored", &file], b"");
    assert_eq!((ran.status, ran.text()), (0, STORED));
    let listing = run(&["stage", "--bytes", &file], b"").stdout;
    let ran = run(&["stored", "--listing", "-"], &listing);
    assert_eq!((ran.status, ran.text()), (0, STORED));
    let bytes = run(&["stored", "--bytes", &file], b"").stdout;
    assert_eq!(bytes, listing_with(STORED, &WHILE_FALSE_NODES));
    let of_listing = run(&["stored", "--bytes", "--listing", "-"], &listing);
    assert_eq!(of_listing.stdout, bytes);
    let ran = run(&["stored", "--nodes", &file], b"");
    let last = "7 1F 0 -10 0 0 0 0000000000000000  While at 10";
    assert_eq!((ran.status, ran.text().lines().last()), (0, Some(last)));
    let ran = run(&["stored", &example("refused-in-the-walk")], b"");
    assert_eq!((ran.status, ran.text()), (1, "refused 10 10 0\n"));
    assert!(ran.stderr.contains("path: Break at 10"), "{}", ran.stderr);
}

#[test]
fn restored_is_the_way_back() {
    let file = example("while-false");
    let stored = run(&["stored", "--bytes", &file], b"").stdout;
    let ran = run(&["restored", "-"], &stored);
    assert_eq!((ran.status, ran.text()), (0, WHILE_FALSE_CODE));
    let text = Unit::from_bytes(stored.as_slice()).to_hex();
    let ran = run(&["restored", "-"], text.as_bytes());
    assert_eq!((ran.status, ran.text()), (0, WHILE_FALSE_CODE));
    let listing = run(&["restored", "--bytes", "-"], &stored).stdout;
    assert_eq!(listing, run(&["stage", "--bytes", &file], b"").stdout);
    let drawn = run(&["draw", "--listing", "-"], &listing);
    assert_eq!(drawn.stdout, run(&["draw", &file], b"").stdout);
}

#[test]
fn what_cannot_be_stored_or_restored_is_refused() {
    let with_last = |first: &str| listing_of(&WHILE_FALSE_CODE.replace("-7", first));
    let ran = run(&["stored", "--listing", "-"], &with_last("-32768"));
    assert_eq!((ran.status, ran.text()), (1, "refused 33 3 0\n"));
    assert!(ran.stderr.contains("first jump of record 3"));
    let ran = run(&["restored", "-"], &with_last("32767"));
    assert_eq!((ran.status, ran.text()), (1, "refused 33 3 0\n"));
    assert!(ran.stderr.contains("first jump of record 3"));
    // a unit is no listing
    let ran = run(&["restored", &example("while-false")], b"");
    assert_eq!((ran.status, ran.text()), (1, "refused 30 0 0\n"));
    let ran = run(&["stored", "--listing", &example("while-false")], b"");
    assert_eq!((ran.status, ran.text()), (1, "refused 30 0 0\n"));
}

#[test]
fn draw_has_arrows() {
    let ran = run(&["draw", "--ascii", &example("while-false")], b"");
    let expected = r"
/-+->  0  JumpIfFalse     +10 -> 10
| |    3  FalseConst
|-+--  4  Jump            +6 -> 10
| \--  7  Jump            -7 -> 0
\---> 10  end
";
    assert_eq!((ran.status, ran.text()), (0, &expected[1..]));
    let ran = run(&["draw", "--columns", "0", &example("while-false")], b"");
    assert!(!ran.text().contains('╭'));
}

#[test]
fn wrong_usage_and_files() {
    let file = example("while-false");
    let wrong: [&[&str]; 22] = [
        &[],
        &["stage"],
        &["view", &file],
        &["view", &file, "x"],
        &["stage", &file, "more"],
        &["assemble", &file],
        &["stage", "--wrong", &file],
        &["stage", "--listing", &file],
        &["check", "--bytes", &file],
        &["stage", "--ascii", &file],
        &["draw", &file, "--columns"],
        &["check", "--nodes", &file],
        &["stage", "--nodes", "--bytes", &file],
        &["draw", "--nodes", "--listing", &file],
        &["strip", "--nodes", &file],
        &["strip", "--listing", &file],
        &["stored", "--nodes", "--bytes", &file],
        &["stored", "--nodes", "--listing", &file],
        &["stored", "--ascii", &file],
        &["restored", "--nodes", &file],
        &["restored", "--listing", &file],
        &["restored", &file, "0"],
    ];
    for words in wrong {
        let ran = run(words, b"");
        assert_eq!((ran.status, ran.text()), (2, ""), "{words:?}");
        assert!(ran.stderr.contains("--help"), "{}", ran.stderr);
    }
    let absent = run(&["stage", "no-such-file.hex"], b"");
    assert_eq!((absent.status, absent.text()), (2, ""));
    assert!(absent.stderr.contains("no-such-file.hex"));
    let damaged = run(&["stage", "-"], b"01 00\n0Z");
    assert_eq!((damaged.status, damaged.text()), (2, ""));
    assert!(damaged.stderr.contains("line 2"), "{}", damaged.stderr);
    assert!(!Path::new("no-such-file.hex").exists());
}

#[test]
fn help_names_every_command() {
    let ran = run(&["--help"], b"");
    assert_eq!(ran.status, 0);
    for word in [
        "stage", "labelled", "stored", "restored", "check", "view", "draw", "strip",
    ] {
        let line = format!("\n  {word} FILE ");
        assert!(ran.text().contains(&line), "{word}");
    }
    for word in ["--hex", "--raw", "--listing", "--bytes", "--nodes"] {
        assert!(ran.text().contains(word), "{word}");
    }
}
