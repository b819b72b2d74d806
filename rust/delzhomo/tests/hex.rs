//! Commented hexadecimal.

mod common;

use common::{WHILE_FALSE, hex, text_of};
use delzhomo::{HexError, HexFault, Unit};

#[test]
fn comments_and_white_space_are_passed_over() {
    let unit = Unit::from_hex("# a unit\n01 0aFf\t# 99\n\n  10#x").unwrap();
    assert_eq!(unit.bytes(), [0x01, 0x0A, 0xFF, 0x10]);
    assert_eq!(Unit::from_hex("").unwrap().bytes(), []);
    assert_eq!("01\r\n02".parse::<Unit>().unwrap().bytes(), [1, 2]);
}

#[test]
fn the_first_example_is_example_a() {
    let unit = Unit::from_hex(&text_of("examples/while-false.hex")).unwrap();
    assert_eq!(unit.bytes(), hex(WHILE_FALSE));
}

#[test]
fn what_is_written_is_read_again() {
    let unit = Unit::from_bytes((0..40).collect::<Vec<u8>>());
    let text = unit.to_hex();
    assert_eq!(text.lines().count(), 3);
    assert_eq!(text.lines().last(), Some("20 21 22 23 24 25 26 27"));
    assert_eq!(Unit::from_hex(&text).unwrap(), unit);
    assert_eq!(Unit::from_bytes([]).to_hex(), "");
}

#[test]
fn errors_have_lines() {
    let fault = |text| Unit::from_hex(text).unwrap_err();
    let not_a_digit = HexError {
        line: 3,
        fault: HexFault::NotADigit('G'),
    };
    assert_eq!(fault("01\n# G\n0G"), not_a_digit);
    assert_eq!(
        fault("01\n\n02é").to_string(),
        "line 3: 'é' is not a hexadecimal digit"
    );
    assert_eq!(
        fault("01 02\n030"),
        HexError {
            line: 2,
            fault: HexFault::HalfAByte
        }
    );
    // the two digits of a byte stand together, so that a lost digit is found where it is lost
    assert_eq!(
        fault("0 1"),
        HexError {
            line: 1,
            fault: HexFault::HalfAByte
        }
    );
}
