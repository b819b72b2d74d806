//! Drawings of listings; nothing here is lowered.

mod common;

use common::{WHILE_FALSE_CODE, listing_of, recorded};
use delzhomo::Listing;

/// `while (nop) { switch (nop) { case nop: break; default: nop; case nop: continue } }`, the default before case 1: the second
/// listing of the handbook.
const MID_DEFAULT: &str = "\
code 14 42
0 20 0 42 0 0 0 0000000000000000
3 00 0 0 0 0 0 0000000000000000
4 1C 0 12 0 0 0 0000000000000009
15 00 0 0 0 0 0 0000000000000000
16 1D 0 6 16 0 0 0000000000000000
21 00 0 0 0 0 0 0000000000000000
22 1D 0 6 14 0 0 0000000000000000
27 00 0 0 0 0 0 0000000000000000
28 1E 0 0 0 0 0 0000000000000000
29 1F 0 6 0 0 0 0000000000000000
32 1F 0 7 0 0 0 0000000000000000
35 00 0 0 0 0 0 0000000000000000
36 1F 0 -36 0 0 0 0000000000000000
39 1F 0 -39 0 0 0 0000000000000000
";

fn drawn(code: &str) -> String {
    let bytes = listing_of(code);
    Listing::as_far_as_good(&bytes).draw().to_string()
}

#[test]
fn example_a() {
    let expected = "\
╭─┬─>  0  JumpIfFalse     +10 → 10
│ │    3  FalseConst
├─┼──  4  Jump            +6 → 10
│ ╰──  7  Jump            -7 → 0
╰───> 10  end
";
    assert_eq!(drawn(WHILE_FALSE_CODE), expected);
}

#[test]
fn example_a_in_ascii() {
    let bytes = listing_of(WHILE_FALSE_CODE);
    let drawing = Listing::as_far_as_good(&bytes).draw().ascii(true);
    let expected = r"
/-+->  0  JumpIfFalse     +10 -> 10
| |    3  FalseConst
|-+--  4  Jump            +6 -> 10
| \--  7  Jump            -7 -> 0
\---> 10  end
";
    assert_eq!(drawing.to_string(), expected[1..]);
}

#[test]
fn a_switch_in_a_loop() {
    let expected = "\
╭─┬─────────>  0  JumpIfFalse     +42 → 42
│ │            3  Nop
│ │       ╭──  4  Switch          first_case +12 → 16  type 9
│ │       │   15  Nop
│ │   ╭─┬─┴─> 16  SwitchLabel     next_case +6 → 22  body +16 → 32
│ │   │ │     21  Nop
│ │ ╭─┼─┴─┬─> 22  SwitchLabel     next_case +6 → 28  body +14 → 36
│ │ │ │   │   27  Nop
│ │ │ │   ╰─> 28  SwitchDefault
│ │ │ │   ╭── 29  Jump            +6 → 35
│ │ │ ╰─┬─┼─> 32  Jump            +7 → 39
│ │ │   │ ╰─> 35  Nop
│ ├─┴───┼───> 36  Jump            -36 → 0
│ ╰─────┴───> 39  Jump            -39 → 0
╰───────────> 42  end
";
    assert_eq!(drawn(MID_DEFAULT), expected);
}

#[test]
fn the_shortest_arrows_are_drawn_where_columns_are_few() {
    let bytes = listing_of(WHILE_FALSE_CODE);
    let draw = |columns| {
        let drawing = Listing::as_far_as_good(&bytes).draw().columns(columns);
        drawing.to_string()
    };
    let one = "\
╭─>  0  JumpIfFalse     +10 → 10
│    3  FalseConst
│    4  Jump            +6 → 10
╰──  7  Jump            -7 → 0
    10  end
";
    assert_eq!(draw(1), one);
    assert!(draw(0).lines().all(|line| line.starts_with("  ")));
}

#[test]
fn values_are_what_they_stand_for() {
    let code = "\
code 7 0
0 04 0 0 0 0 0 00000000000000FF
0 0C 0 0 0 0 0 000000003FC00000
0 0F 0 0 0 0 0 0000000300000004
0 23 2 0 0 0 0 0000000000000005
0 25 0 15 0 7 3 0000000000000006
0 5A 1 0 0 0 0 0000000000000007
0 0B 0 0 0 0 0 FFFFFFFFFFFFFFFF
";
    let fields: Vec<String> = drawn(code)
        .lines()
        .map(|line| {
            line.split_whitespace()
                .skip(2)
                .collect::<Vec<_>>()
                .join(" ")
        })
        .collect();
    let expected = [
        "-1",
        "1.5",
        "enum 3 value 4",
        "arg_count 2 class 5",
        "exit +15 → 49 line 7 flags 3 name 6",
        "is_weak 1 class 7",
        "18446744073709551615",
    ];
    // lines that an arrow goes by have one more word in front
    for (found, expected) in fields.iter().zip(expected) {
        assert!(found.ends_with(expected), "{found}");
    }
}

#[test]
fn jumps_to_nowhere_have_no_arrow() {
    let code = "\
code 3 9
0 1F 0 1 0 0 0 0000000000000000
3 1F 0 -4 0 0 0 0000000000000000
6 1F 0 0 0 0 0 0000000000000000
";
    let expected = "
  0  Jump            +1 → 1
  3  Jump            -4 → -1
  6  Jump            +0 → 6
  9  end
";
    assert_eq!(drawn(code), expected[1..]);
    assert_eq!(drawn("code 0 0\n"), "  0  end\n");
}

/// Whether an arrow inside another ever crosses it: with arrows that are nested no line is drawn through another.
#[test]
fn nested_arrows_do_not_cross() {
    let code = "\
code 6 18
0 1F 0 18 0 0 0 0000000000000000
3 1F 0 12 0 0 0 0000000000000000
6 1F 0 6 0 0 0 0000000000000000
9 1F 0 3 0 0 0 0000000000000000
12 00 0 0 0 0 0 0000000000000000
13 00 0 0 0 0 0 0000000000000000
";
    let drawing = drawn(code);
    assert!(!drawing.contains('┼'), "{drawing}");
}

#[test]
fn every_recorded_listing_is_drawn_a_line_for_each_instruction() {
    for unit in recorded("trial/recorded.txt") {
        let Some(code) = unit.stage.filter(|answer| answer.starts_with("code")) else {
            continue;
        };
        let bytes = listing_of(&code);
        let listing = Listing::as_far_as_good(&bytes);
        for columns in [0, 1, 3, 12, 1_000] {
            let drawing = listing.draw().columns(columns).ascii(true).to_string();
            assert!(drawing.is_ascii());
            assert_eq!(drawing.lines().count(), listing.len() + 1, "{}", unit.name);
        }
    }
}
