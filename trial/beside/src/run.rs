//! Draws the units or listings, compares each, and tells what was found.

use std::fmt::Display;
use std::fs;
use std::process::ExitCode;
use std::time::Instant;

use oracle::cases::{self, to_hex};
use oracle::generate::{Size, damaged_unit, undamaged_unit};
use oracle::random::Random;

use crate::compare::Library;
use crate::difference::{Compared, Difference};
use crate::options::{Mode, Options};
use crate::stored::Listings;
use crate::stored::edges::{self, Edges};
use crate::stored::model::Field;
use crate::stripped::Pair;

/// One unit of so many is also lent just enough room, and too little.
const ROOMS: usize = 16;

/// How many differences are told, and how much of a unit.
const TOLD: usize = 20;
const TOLD_BYTES: usize = 2_048;

/// What is tried with each unit, or with each of what is drawn instead.
pub trait Trial {
    /// What was compared, in figures.
    type Tally: Default + Display;

    /// One as it is made, by its number.
    fn well(random: &mut Random, number: usize) -> Vec<u8> {
        undamaged_unit(random, well_size(number))
    }

    /// A damaged one.
    fn damaged(random: &mut Random, number: usize) -> Vec<u8> {
        damaged_unit(random, damaged_size(number))
    }

    /// Compares all that is said of a unit, and counts it; with `rooms`, also with room that just suffices and with too little.
    fn try_unit(&mut self, unit: &[u8], rooms: bool, tally: &mut Self::Tally) -> Compared<()>;
}

/// A unit on which the two sides differ.
struct Found {
    name: String,
    unit: Vec<u8>,
    difference: Difference,
}

/// What was found in all that was compared one after the other.
#[derive(Default)]
struct Run {
    found: Vec<Found>,
    differing: usize,
}

pub fn run(options: &Options) -> Result<ExitCode, String> {
    let began = Instant::now();
    let mut run = Run::default();
    match options.mode {
        Mode::Published => run.all(&mut Library::new(), options)?,
        Mode::Stripped => run.all(&mut Pair::new(), options)?,
        Mode::Stored => {
            run.edges();
            run.all(&mut Listings::new(), options)?;
        }
    }
    println!("time: {:.1} s", began.elapsed().as_secs_f64());
    run.tell(options.mode.noun());
    Ok(match run.differing {
        0 => ExitCode::SUCCESS,
        _ => ExitCode::FAILURE,
    })
}

impl Run {
    fn all<T: Trial>(&mut self, trial: &mut T, options: &Options) -> Result<(), String> {
        match &options.file {
            Some(file) => self.file(trial, file)?,
            None => self.random(trial, options),
        }
        Ok(())
    }

    /// Every number in each field that is moved.
    fn edges(&mut self) {
        for field in [Field::First, Field::Second] {
            let name = format!("each number as {field}");
            self.units(&mut Edges::new(field), &name, edges::listings(field));
        }
    }

    fn random<T: Trial>(&mut self, trial: &mut T, options: &Options) {
        let Options {
            seed,
            well,
            damaged,
            ..
        } = options;
        println!("seed {seed}");
        let mut random = Random::new(*seed);
        let made = (0..*well).map(|number| T::well(&mut random, number));
        self.units(trial, "well", made);
        let made = (0..*damaged).map(|number| T::damaged(&mut random, number));
        self.units(trial, "damaged", made);
    }

    fn file<T: Trial>(&mut self, trial: &mut T, file: &str) -> Result<(), String> {
        let text = fs::read_to_string(file).map_err(|error| format!("{file}: {error}"))?;
        let cases = cases::parse(&text)?;
        self.units(trial, file, cases.into_iter().map(|case| case.unit));
        Ok(())
    }

    /// Compares the units, and prints their figures.
    fn units<T: Trial>(&mut self, trial: &mut T, name: &str, units: impl Iterator<Item = Vec<u8>>) {
        let mut tally = T::Tally::default();
        for (number, unit) in units.enumerate() {
            let rooms = number % ROOMS == 0;
            if let Err(difference) = trial.try_unit(&unit, rooms, &mut tally) {
                self.add(Found {
                    name: format!("{name} {number}"),
                    unit,
                    difference,
                });
            }
        }
        print!("{name}: {tally}");
    }

    /// Keeps the smallest.
    fn add(&mut self, found: Found) {
        self.differing += 1;
        let length = found.unit.len();
        let at = self
            .found
            .partition_point(|other| other.unit.len() <= length);
        if at < TOLD {
            self.found.insert(at, found);
            self.found.truncate(TOLD);
        }
    }

    fn tell(&self, noun: &str) {
        println!("{} {noun} differ", self.differing);
        for found in &self.found {
            let Found {
                name,
                unit,
                difference,
            } = found;
            let shown = &unit[..unit.len().min(TOLD_BYTES)];
            let cut = if shown.len() < unit.len() { ".." } else { "" };
            println!("{name}, {} bytes: {}{cut}", unit.len(), to_hex(shown));
            print!("{difference}");
        }
    }
}

/// Of a hundred, four are big and thirty medium; one of 8,000 is as long as units may be.
fn well_size(number: usize) -> Size {
    match number % 100 {
        _ if number % 8_000 == 99 => Size::Longest,
        0..=3 => Size::Big,
        4..=33 => Size::Medium,
        _ => Size::Small,
    }
}

/// Of a thousand, four are big and a hundred medium; one of 40,000 is as long as units may be.
fn damaged_size(number: usize) -> Size {
    match number % 1_000 {
        _ if number % 40_000 == 999 => Size::Longest,
        0..=3 => Size::Big,
        4..=103 => Size::Medium,
        _ => Size::Small,
    }
}
