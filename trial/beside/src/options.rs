//! The command line.

use std::str::FromStr;

pub const USAGE: &str = "\
usage: beside [--strip | --stored] [--seed N] [--well COUNT] [--damaged COUNT] [--short] [--units FILE]
  --strip          compare each unit with itself stripped, without the published assembler
  --stored         give random listings, not units, to store and restore
  --seed N         draw other units (1)
  --well COUNT     so many as they were made (100000)
  --damaged COUNT  so many damaged ones (1000000)
  --short          some seconds' worth of both
  --units FILE     those of a file instead, in one of the oracle's two forms";

/// What is held against what.
#[derive(Debug)]
pub enum Mode {
    /// What the library makes of units, against the published assembler.
    Published,
    /// Units against themselves stripped.
    Stripped,
    /// What is stored and restored of listings, against a model and the published code.
    Stored,
}

impl Mode {
    /// What is drawn.
    pub fn noun(&self) -> &'static str {
        match self {
            Self::Published | Self::Stripped => "units",
            Self::Stored => "listings",
        }
    }
}

#[derive(Debug)]
pub struct Options {
    pub mode: Mode,
    pub seed: u64,
    pub well: usize,
    pub damaged: usize,
    pub file: Option<String>,
}

/// What the arguments ask for; none if it is help.
pub fn parse(mut args: impl Iterator<Item = String>) -> Result<Option<Options>, String> {
    let mut options = Options {
        mode: Mode::Published,
        seed: 1,
        well: 100_000,
        damaged: 1_000_000,
        file: None,
    };
    while let Some(arg) = args.next() {
        match arg.as_str() {
            "--strip" => options.mode = Mode::Stripped,
            "--stored" => options.mode = Mode::Stored,
            "--seed" => options.seed = number(args.next())?,
            "--well" => options.well = number(args.next())?,
            "--damaged" => options.damaged = number(args.next())?,
            "--short" => (options.well, options.damaged) = (8_000, 40_000),
            "--units" => options.file = Some(args.next().ok_or(USAGE)?),
            "--help" | "-h" => return Ok(None),
            _ => return Err(USAGE.to_string()),
        }
    }
    Ok(Some(options))
}

fn number<T: FromStr>(arg: Option<String>) -> Result<T, String> {
    let number = arg.and_then(|arg| arg.replace('_', "").parse().ok());
    number.ok_or_else(|| USAGE.to_string())
}
