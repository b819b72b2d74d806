//! The speed of the static library beside the published assembler's, on the same units in one run.
//!
//! The published assembler is given a tree that is already built, and resolves as it ends. The library is given the unit's bytes:
//! it scans them, walks them, checks the listing and resolves it; its buffers are kept from run to run.

mod shapes;
mod timing;

use std::env;
use std::process::ExitCode;

use delzhomo::{Totals, Unit, check, listing_length, lower_into, measure, resolve_into};
use oracle::program::Program;
use oracle::reader::{self, ExtraArguments};

use shapes::SHAPES;
use timing::{Work, least};

const SIZES: [usize; 3] = [1 << 10, 1 << 16, 1 << 20];

/// The bytes of a record.
const RECORD: usize = 22;

const HELP: &str = "\
usage: bench [ROUNDS] [SHAPE]

Prints a table of times: ROUNDS turns for each (20 if not said), only shapes whose names hold SHAPE.
";

fn main() -> ExitCode {
    let mut words = env::args().skip(1);
    let rounds = words.next().map_or(Ok(20), |word| word.parse());
    let Ok(rounds) = rounds else {
        eprint!("{HELP}");
        return ExitCode::from(2);
    };
    let wanted = words.next().unwrap_or_default();
    println!(
        "| Shape | Bytes | Records | Rust, ns a byte | Stage, ns a byte | Rust / stage | Scan | Walk | Check | Labels and code | Read and walked dry |"
    );
    println!("|---|---|---|---|---|---|---|---|---|---|---|");
    for (name, make) in SHAPES.iter().filter(|(name, _)| name.contains(&wanted)) {
        for size in SIZES {
            println!("{}", row(name, &make(size), rounds));
        }
    }
    ExitCode::SUCCESS
}

/// A unit that is assembled again and again, with buffers that are just long enough.
struct Bench {
    unit: Unit,
    totals: Totals,
    labelled: Vec<u8>,
    marks: Vec<u32>,
}

impl Bench {
    fn new(unit: &Unit) -> Self {
        let totals = measure(unit).expect("every shape lowers");
        let mut labelled = vec![0; listing_length(totals.records)];
        let mut marks = vec![0; totals.labels];
        lower_into(unit, &mut labelled, &mut marks).expect("it was measured");
        Self {
            unit: unit.clone(),
            totals,
            labelled,
            marks,
        }
    }

    /// The published assembler, the whole stage, and the parts of which the passes' times are differences.
    fn works<'a>(&'a self, program: &'a mut Program) -> Vec<Work<'a>> {
        let length = listing_length(self.totals.records);
        let buffers = || {
            (
                vec![0; length],
                vec![0; self.totals.labels],
                vec![0; length],
            )
        };
        let (mut out, mut marks, mut code) = buffers();
        let (mut out2, mut marks2, mut code2) = buffers();
        let (mut short, mut marks3, _) = buffers();
        short.truncate(length - RECORD);
        vec![
            Box::new(move || program.code().map_or(0, |code| code.len())),
            Box::new(move || {
                let lowered = lower_into(&self.unit, &mut out, &mut marks);
                let resolved = resolve_into(&out, &marks, &mut code);
                lowered.map_or(0, |totals| totals.records) + resolved.unwrap_or(0)
            }),
            Box::new(move || {
                lower_into(&self.unit, &mut short, &mut marks3).map_or(0, |totals| totals.records)
            }),
            Box::new(|| measure(&self.unit).map_or(0, |totals| totals.records)),
            Box::new(move || {
                lower_into(&self.unit, &mut out2, &mut marks2).map_or(0, |totals| totals.records)
            }),
            Box::new(|| check(&self.labelled).unwrap_or(0)),
            Box::new(move || resolve_into(&self.labelled, &self.marks, &mut code2).unwrap_or(0)),
        ]
    }
}

/// A line of the table. Passes are in percent of the stage. Where there is no room for the last record, the scan gives up there, and the
/// unit is read and walked dry: what that takes more than measuring is the scan.
fn row(name: &str, unit: &Unit, rounds: usize) -> String {
    let bench = Bench::new(unit);
    let mut program = reader::read(unit.bytes(), ExtraArguments::Refuse, None)
        .unwrap_or_else(|_| panic!("{name} is read"));
    let records = program.code().map_or(0, |code| code.len());
    assert_eq!(records, bench.totals.records, "{name}: both give code");
    let times = least(&mut bench.works(&mut program), rounds);
    let &[rust, stage, refused, measure, lower, check, resolve] = &times[..] else {
        unreachable!("as many times as works")
    };
    let scan = refused - measure;
    let bytes = unit.bytes().len();
    let a_byte = |time: f64| time / bytes as f64;
    let share = |time: f64| format!("{:.0} %", 100.0 * time / stage);
    format!(
        "| {name} | {bytes} | {records} | {:.2} | {:.2} | {:.2} | {} | {} | {} | {} | {} |",
        a_byte(rust),
        a_byte(stage),
        rust / stage,
        share(scan),
        share(lower - scan),
        share(check),
        share(resolve - check),
        share(measure),
    )
}
