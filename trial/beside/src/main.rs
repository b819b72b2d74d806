//! Gives random units to the built library and to the published assembler, or compares them with themselves stripped; or has random
//! listings stored and restored. See README.md.

mod compare;
mod difference;
mod drawn;
mod lent;
mod listing;
mod options;
mod published;
mod rooms;
mod run;
mod stored;
mod stripped;
mod tally;

use std::panic::PanicHookInfo;
use std::process::ExitCode;
use std::{env, panic, thread};

use options::USAGE;

/// Enough for trees of depth 200.
const STACK: usize = 1 << 28;

fn main() -> ExitCode {
    let options = match options::parse(env::args().skip(1)) {
        Ok(Some(options)) => options,
        Ok(None) => {
            println!("{USAGE}");
            return ExitCode::SUCCESS;
        }
        Err(message) => return fail(&message),
    };
    silence_answers();
    let run = thread::Builder::new().stack_size(STACK);
    match run.spawn(move || run::run(&options)).map(|run| run.join()) {
        Ok(Ok(Ok(code))) => code,
        Ok(Ok(Err(message))) => fail(&message),
        _ => fail("the comparison itself stopped"),
    }
}

fn fail(message: &str) -> ExitCode {
    eprintln!("{message}");
    ExitCode::FAILURE
}

/// Panics that are answers are not told; any other is, as ever.
fn silence_answers() {
    let tell = panic::take_hook();
    panic::set_hook(Box::new(move |panic| {
        if !is_answer(panic) {
            tell(panic);
        }
    }));
}

/// That at the 65,537th label, and those where a published `Offset` leaves 16 bits.
fn is_answer(panic: &PanicHookInfo) -> bool {
    let message = panic.payload_as_str().unwrap_or_default();
    let file = panic.location().map_or("", |location| location.file());
    let in_offset = file.ends_with("instr.rs") && message.ends_with("with overflow");
    in_offset || message.starts_with("label count")
}
