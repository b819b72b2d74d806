//! Prints random units in hexadecimal, one a line. See README.md.

use std::io::{self, Write};
use std::process::ExitCode;
use std::{env, fmt};

use oracle::cases::to_hex;
use oracle::generate::{Size, random_unit};
use oracle::random::Random;

const USAGE: &str = "usage: generate small|medium|big|longest SEED COUNT";

fn main() -> ExitCode {
    match run() {
        Ok(()) => ExitCode::SUCCESS,
        Err(message) => {
            eprintln!("{message}");
            ExitCode::FAILURE
        }
    }
}

fn run() -> Result<(), String> {
    let args: Vec<String> = env::args().skip(1).collect();
    let [size, seed, count] = &args[..] else {
        return Err(USAGE.to_string());
    };
    let size = match size.as_str() {
        "small" => Size::Small,
        "medium" => Size::Medium,
        "big" => Size::Big,
        "longest" => Size::Longest,
        _ => return Err(USAGE.to_string()),
    };
    let mut random = Random::new(seed.parse().map_err(text)?);
    let count: usize = count.parse().map_err(text)?;
    let mut out = io::BufWriter::new(io::stdout().lock());
    let mut made = 0;
    while made < count {
        let unit = random_unit(&mut random, size);
        // A unit cut down to nothing has no line.
        if !unit.is_empty() {
            writeln!(out, "{}", to_hex(&unit)).map_err(text)?;
            made += 1;
        }
    }
    out.flush().map_err(text)
}

fn text(error: impl fmt::Display) -> String {
    error.to_string()
}
