//! Files of units: one in hexadecimal a line, or in the form of cases.txt.

use crate::answer::Mode;

/// A unit of a file, with the answers that the file gives for it.
#[derive(Debug)]
pub struct Case {
    pub name: String,
    pub unit: Vec<u8>,
    pub expected: Vec<(Mode, String)>,
}

impl Case {
    fn new(name: &str, hex: &str) -> Result<Self, String> {
        let unit = from_hex(hex).ok_or_else(|| format!("unit {name}: not hexadecimal"))?;
        Ok(Self {
            name: name.to_string(),
            unit,
            expected: vec![],
        })
    }

    /// The first line of the unit's entry, in the form of cases.txt.
    pub fn head(&self) -> String {
        format!("unit {} {}\n", self.name, to_hex(&self.unit))
    }
}

/// Reads either form; a file in the form of cases.txt has lines that begin with `unit`. In the
/// other form a unit is named by its line number.
pub fn parse(text: &str) -> Result<Vec<Case>, String> {
    let is_used = |line: &str| !line.is_empty() && !line.starts_with('#');
    let lines = text.lines().zip(1..).filter(|(line, _)| is_used(line));
    if text.lines().any(|line| line.starts_with("unit ")) {
        entries(lines)
    } else {
        lines
            .map(|(line, number)| Case::new(&number.to_string(), line))
            .collect()
    }
}

fn entries<'a>(lines: impl Iterator<Item = (&'a str, usize)>) -> Result<Vec<Case>, String> {
    let mut cases: Vec<Case> = vec![];
    for (line, number) in lines {
        if let Some(rest) = line.strip_prefix("unit ") {
            let (name, hex) = rest.split_once(' ').unwrap_or((rest, ""));
            cases.push(Case::new(name, hex)?);
        } else {
            cases
                .last_mut()
                .and_then(|case| add_answer_line(case, line))
                .ok_or_else(|| format!("line {number}: an answer without unit or mode"))?;
        }
    }
    Ok(cases)
}

fn add_answer_line(case: &mut Case, line: &str) -> Option<()> {
    match line {
        "stage" => case.expected.push((Mode::Stage, String::new())),
        "labelled" => case.expected.push((Mode::Labelled, String::new())),
        line => {
            let (_, answer) = case.expected.last_mut()?;
            answer.push_str(line);
            answer.push('\n');
        }
    }
    Some(())
}

pub fn to_hex(bytes: &[u8]) -> String {
    const DIGITS: &[u8; 16] = b"0123456789ABCDEF";

    let digit = |value: u8| char::from(DIGITS[usize::from(value)]);
    let digits = |byte: &u8| [digit(byte >> 4), digit(byte & 15)];
    bytes.iter().flat_map(digits).collect()
}

fn from_hex(text: &str) -> Option<Vec<u8>> {
    let (pairs, []) = text.as_bytes().as_chunks::<2>() else {
        return None;
    };
    pairs
        .iter()
        .map(|&[high, low]| Some(hex_digit(high)? << 4 | hex_digit(low)?))
        .collect()
}

fn hex_digit(digit: u8) -> Option<u8> {
    char::from(digit).to_digit(16).map(|value| value as u8)
}
