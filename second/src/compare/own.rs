//! The model held against itself: bench, sampling rule, two runs, and what the generators reach.

use super::bench;
use super::board_cases;
use super::course::{self, Jobs};
use super::pair::{ModelBoard, Pair};
use super::report::{Difference, Outcome, Tally};
use crate::generate::chance::Chance;
use crate::generate::shapes;
use crate::model::rules::{Model, RIGHT};

/// `compare self`
pub fn compare(cases: u64, seed: u64) -> bool {
    let mut tally = Tally::default();
    for (name, outcome) in bench::cases() {
        tally.count(name, outcome);
    }
    tally.count("what the generators reach", reach(seed));
    let mut all_jobs = Jobs::default();
    for number in 0..cases {
        let name = format!("case {number} of seed {seed} (two runs)");
        let outcome = sampling(&RIGHT, seed, number).map(|jobs| {
            all_jobs.started += jobs.started;
            all_jobs.in_both += jobs.in_both;
        });
        tally.count(&name, outcome);
    }
    let Jobs { started, in_both } = all_jobs;
    println!("jobs held against the sampling rule: {started}; started in both runs: {in_both}");
    tally.end()
}

/// Two runs of one plan, each held against the sampling rule and the order at every call.
pub fn sampling(model: &Model, seed: u64, number: u64) -> Result<Jobs, Difference> {
    let mut chance = Chance::of_case(seed, number);
    let tables = shapes::accepted(&mut chance);
    let calls = chance.between(20, 400);
    course::two_runs(model, &tables, calls, &mut chance)
}

/// Cases enough for every answer to come up.
const REACHING_CASES: u64 = 400;

/// Every answer each call can give, by kind and refusal number.
const ANSWERS: [(&str, u64, &[u64]); 12] = [
    ("read", 0, &[9, 10, 11, 12, 13]),
    ("read", 5, &[0]),
    ("plan", 0, &[1, 2, 3, 4, 5, 6, 7, 8, 9]),
    ("plan", 4, &[0]),
    ("fresh", 0, &[1, 2, 3, 4, 5, 6, 7, 8, 9]),
    ("fresh", 2, &[0]),
    ("tick", 0, &[15, 16]),
    ("tick", 1, &[0]),
    ("tick", 2, &[0]),
    ("tick", 3, &[0]),
    ("complete", 0, &[14, 15, 16]),
    ("complete", 1, &[0]),
];

/// A comparison says nothing about an answer that its cases never meet.
fn reach(seed: u64) -> Outcome {
    let board = ModelBoard(&RIGHT);
    let pair = Pair::new(&board, &board);
    board_cases::every_way_out(&pair, seed)?;
    for number in 0..REACHING_CASES {
        board_cases::generated(&pair, seed, number).1?;
    }
    let coverage = pair.coverage.borrow();
    coverage.print();
    for (call, kind, numbers) in ANSWERS {
        for number in numbers {
            if !coverage.has(call, kind, *number) {
                let what = format!("{call} never answers kind {kind}, number {number}");
                return Err(Difference::new(what));
            }
        }
    }
    Ok(())
}
