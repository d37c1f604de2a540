//! The command line.

use crate::compare;
use std::path::PathBuf;

const USAGE: &str = "usage: compare programs --list PATH --step PATH [--cases N] [--seed S]
       compare board [--cases N] [--seed S]
       compare self [--cases N] [--seed S]
       compare power [--cases N] [--seed S]";

struct Options {
    list: Option<PathBuf>,
    step: Option<PathBuf>,
    cases: u64,
    seed: u64,
}

/// Runs a command and says whether nothing failed.
pub fn run(arguments: &[String]) -> bool {
    let done = arguments.split_first().and_then(|(command, rest)| {
        let options = options(rest)?;
        run_command(command, options)
    });
    done.unwrap_or_else(|| {
        eprintln!("{USAGE}");
        false
    })
}

/// None where the command or its options make no sense.
fn run_command(command: &str, options: Options) -> Option<bool> {
    let Options { cases, seed, .. } = options;
    match command {
        "programs" => {
            let (list, step) = (options.list?, options.step?);
            Some(compare::programs::compare(list, step, cases, seed))
        }
        "board" => Some(board(cases, seed)),
        "self" => Some(compare::own::compare(cases, seed)),
        "power" => Some(compare::power::compare(cases, seed)),
        _ => None,
    }
}

#[cfg(board)]
fn board(cases: u64, seed: u64) -> bool {
    compare::board::compare(cases, seed)
}

#[cfg(not(board))]
fn board(_cases: u64, _seed: u64) -> bool {
    eprintln!("this build has no library linked: build with --cfg board");
    false
}

fn options(arguments: &[String]) -> Option<Options> {
    let mut options = Options {
        list: None,
        step: None,
        cases: 400,
        seed: 1,
    };
    for pair in arguments.chunks(2) {
        let [name, value] = pair else {
            return None;
        };
        match name.as_str() {
            "--list" => options.list = Some(value.into()),
            "--step" => options.step = Some(value.into()),
            "--cases" => options.cases = value.parse().ok()?,
            "--seed" => options.seed = value.parse().ok()?,
            _ => return None,
        }
    }
    Some(options)
}
