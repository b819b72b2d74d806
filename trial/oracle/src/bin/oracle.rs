//! Prints or checks the answers of the published assembler. See README.md.

use std::io::{self, Read, Write};
use std::process::ExitCode;
use std::{env, fs, thread};

use oracle::answer::{Mode, Options, answer};
use oracle::cases::{self, Case};
use oracle::limits::Limits;
use oracle::reader::ExtraArguments;

const USAGE: &str =
    "usage: oracle stage|labelled|both|check [--low-limits] [--pass-extra-arguments] [FILE]";

/// Enough for trees of depth 200.
const STACK: usize = 1 << 28;

fn main() -> ExitCode {
    let run = thread::Builder::new().stack_size(STACK).spawn(run);
    match run.map(thread::JoinHandle::join) {
        Ok(Ok(Ok(code))) => code,
        Ok(Ok(Err(message))) => fail(&message),
        _ => fail("the oracle itself stopped"),
    }
}

fn fail(message: &str) -> ExitCode {
    eprintln!("{message}");
    ExitCode::FAILURE
}

fn run() -> Result<ExitCode, String> {
    let mut args: Vec<String> = env::args().skip(1).collect();
    let options = take_options(&mut args);
    let (command, file) = match &args[..] {
        [command] => (command, None),
        [command, file] => (command, Some(file)),
        _ => return Err(USAGE.to_string()),
    };
    let cases = cases::parse(&read(file)?)?;
    match command.as_str() {
        "stage" => print(&cases, &[Mode::Stage], options),
        "labelled" => print(&cases, &[Mode::Labelled], options),
        "both" => print(&cases, &[Mode::Stage, Mode::Labelled], options),
        "check" => return check(&cases, options),
        _ => return Err(USAGE.to_string()),
    }
    .map_err(|error| error.to_string())?;
    Ok(ExitCode::SUCCESS)
}

fn take_options(args: &mut Vec<String>) -> Options {
    Options {
        extra_arguments: match take_option(args, "--pass-extra-arguments") {
            true => ExtraArguments::Pass,
            false => ExtraArguments::Refuse,
        },
        limits: match take_option(args, "--low-limits") {
            true => Limits::LOW,
            false => Limits::REAL,
        },
    }
}

/// Whether it is there.
fn take_option(args: &mut Vec<String>, option: &str) -> bool {
    let count = args.len();
    args.retain(|arg| arg != option);
    args.len() < count
}

fn read(file: Option<&String>) -> Result<String, String> {
    match file {
        Some(file) => fs::read_to_string(file).map_err(|error| format!("{file}: {error}")),
        None => {
            let mut text = String::new();
            let read = io::stdin().read_to_string(&mut text);
            read.map_err(|error| error.to_string()).map(|_| text)
        }
    }
}

/// Prints every unit with its answers, in the form of cases.txt.
fn print(cases: &[Case], modes: &[Mode], options: Options) -> io::Result<()> {
    let mut out = io::BufWriter::new(io::stdout().lock());
    for case in cases {
        out.write_all(case.head().as_bytes())?;
        for &mode in modes {
            let answer = answer(&case.unit, mode, options);
            write!(out, "{}\n{answer}", mode.name())?;
        }
        writeln!(out)?;
    }
    out.flush()
}

/// Compares every answer of the file with the oracle's own.
fn check(cases: &[Case], options: Options) -> Result<ExitCode, String> {
    let (mut same, mut different) = (0, 0);
    for case in cases {
        for (mode, expected) in &case.expected {
            let found = answer(&case.unit, *mode, options);
            if found == *expected {
                same += 1;
            } else {
                different += 1;
                let name = &case.name;
                println!("{name} {}: expected\n{expected}found\n{found}", mode.name());
            }
        }
    }
    let units = cases.len();
    println!("{units} units: {same} answers agree, {different} differ");
    match different {
        0 => Ok(ExitCode::SUCCESS),
        _ => Ok(ExitCode::FAILURE),
    }
}
