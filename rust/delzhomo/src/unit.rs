//! Units: the bytes that the assembler takes, from memory or from commented hexadecimal.

use std::error::Error;
use std::fmt;
use std::str::FromStr;

use crate::ffi;
use crate::path::{self, Nodes, Step};

/// How many bytes stand in a line of hexadecimal.
const LINE: usize = 16;

/// The bytes of one script. Any bytes can be handed in; the assembler refuses what is no unit.
#[derive(Debug, Clone, PartialEq, Eq, Hash)]
pub struct Unit {
    bytes: Vec<u8>,
}

impl Unit {
    /// A unit of these bytes.
    pub fn from_bytes(bytes: impl Into<Vec<u8>>) -> Self {
        Self {
            bytes: bytes.into(),
        }
    }

    /// A unit written in hexadecimal: two digits are a byte, `#` begins a comment up to the end of its line, white space stands
    /// anywhere but between the two digits of a byte.
    pub fn from_hex(text: &str) -> Result<Self, HexError> {
        let mut bytes = Vec::new();
        for (number, line) in text.lines().enumerate() {
            let code = line.split('#').next().unwrap_or_default();
            for word in code.split_whitespace() {
                push_word(word, &mut bytes).map_err(|fault| HexError {
                    line: number + 1,
                    fault,
                })?;
            }
        }
        Ok(Self { bytes })
    }

    /// The unit in hexadecimal, as [`Unit::from_hex`] takes it: 16 bytes a line.
    pub fn to_hex(&self) -> String {
        let line = |bytes: &[u8]| {
            let bytes: Vec<String> = bytes.iter().map(|byte| format!("{byte:02X}")).collect();
            format!("{}\n", bytes.join(" "))
        };
        self.bytes.chunks(LINE).map(line).collect()
    }

    /// Its bytes.
    pub fn bytes(&self) -> &[u8] {
        &self.bytes
    }

    /// Its bytes, given away.
    pub fn into_bytes(self) -> Vec<u8> {
        self.bytes
    }

    /// The nodes from the top of the unit down to a place, outermost first. If a node begins at the place it is the last one; if a
    /// block, a run or a field stands there, or a part is missing there, the last one is the node that it belongs to. The path is
    /// empty for the unit's own front and block. In a damaged unit the path goes as far as the bytes can be followed.
    pub fn path(&self, place: usize) -> Vec<Step> {
        path::path(&self.bytes, place)
    }

    /// All nodes of the unit, for the paths to many of them: to the [node](crate::Instruction::node) of each instruction, say. In a
    /// damaged unit they go as far as the bytes can be followed.
    pub fn nodes(&self) -> Nodes {
        path::nodes(&self.bytes)
    }

    /// The unit without its names and numbers: pool indices, lines and constants are 0, but an I32 that is neither 0 nor 1 is 2, since
    /// its instruction is longer. It is refused with the same three numbers, or has the same totals and label table, and at every
    /// record the same start, size, labels, distances and node.
    ///
    /// It is as long as the unit, and stripped again it stays as it is. A unit that cannot be read is stripped as far as it is read.
    ///
    /// ```
    /// use delzhomo::{Block, Expr, Script, Stmt};
    ///
    /// let returning = |value| {
    ///     let block = Block::new([Stmt::Return(Some(Expr::i32(value)))]);
    ///     Script { returns: true, block }.encode()
    /// };
    /// assert_eq!(returning(1_234)?.stripped(), returning(2)?);
    /// assert_eq!(returning(1)?.stripped(), returning(0)?);
    /// # Ok::<(), Box<dyn std::error::Error>>(())
    /// ```
    pub fn stripped(&self) -> Self {
        let mut bytes = vec![0; self.bytes.len()];
        // a buffer of the unit's length is never too short
        let written = ffi::strip(&self.bytes, &mut bytes).unwrap_or_default();
        bytes.truncate(written);
        Self { bytes }
    }
}

impl AsRef<[u8]> for Unit {
    fn as_ref(&self) -> &[u8] {
        &self.bytes
    }
}

impl From<Vec<u8>> for Unit {
    fn from(bytes: Vec<u8>) -> Self {
        Self { bytes }
    }
}

impl FromStr for Unit {
    type Err = HexError;

    fn from_str(text: &str) -> Result<Self, Self::Err> {
        Self::from_hex(text)
    }
}

/// Why a text is not hexadecimal.
#[derive(Debug, Clone, Copy, PartialEq, Eq)]
pub struct HexError {
    /// The line, from 1 on.
    pub line: usize,
    /// What is wrong in it.
    pub fault: HexFault,
}

/// What is wrong in a line of hexadecimal.
#[derive(Debug, Clone, Copy, PartialEq, Eq)]
pub enum HexFault {
    /// A character that is no hexadecimal digit.
    NotADigit(char),
    /// A word with an odd number of digits: half a byte is missing.
    HalfAByte,
}

impl fmt::Display for HexError {
    fn fmt(&self, f: &mut fmt::Formatter<'_>) -> fmt::Result {
        write!(f, "line {}: ", self.line)?;
        match self.fault {
            HexFault::NotADigit(found) => write!(f, "{found:?} is not a hexadecimal digit"),
            HexFault::HalfAByte => write!(f, "an odd number of digits; two make a byte"),
        }
    }
}

impl Error for HexError {}

fn push_word(word: &str, bytes: &mut Vec<u8>) -> Result<(), HexFault> {
    let mut digits = word.chars();
    while let Some(high) = digits.next() {
        let high = digit(high)?;
        let low = digit(digits.next().ok_or(HexFault::HalfAByte)?)?;
        bytes.push(high << 4 | low);
    }
    Ok(())
}

fn digit(found: char) -> Result<u8, HexFault> {
    found
        .to_digit(16)
        .and_then(|value| u8::try_from(value).ok())
        .ok_or(HexFault::NotADigit(found))
}
