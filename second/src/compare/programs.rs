//! The comparison with the two programs.

use super::processes::{ModelRunner, Processes};
use super::program_cases::{self, Programs};
use super::report::{Difference, Tally};
use crate::model::rules::RIGHT;
use std::path::PathBuf;

/// `compare programs`
pub fn compare(list: PathBuf, step: PathBuf, cases: u64, seed: u64) -> bool {
    let mut tally = Tally::default();
    let processes = match Processes::new(list, step) {
        Ok(processes) => processes,
        Err(error) => {
            tally.count("start", Err(Difference::new(error.to_string())));
            return tally.end();
        }
    };
    let right = ModelRunner(&RIGHT);
    let programs = Programs::new(&right, &processes);
    for (name, outcome) in program_cases::fixed(&programs) {
        tally.count(name, outcome);
    }
    for number in 0..cases {
        let (name, outcome) = program_cases::generated(&programs, seed, number);
        tally.count(&name, outcome);
    }
    programs.print_met();
    tally.end()
}
