//! The power of the comparisons: each known mistake has to be noticed.

use super::board_cases;
use super::own;
use super::pair::{ModelBoard, Pair};
use super::processes::ModelRunner;
use super::program_cases::{self, Programs};
use super::report::{Difference, Tally};
use crate::mistakes::{self, Mistake};
use crate::model::rules::{Model, RIGHT};

/// `compare power`
pub fn compare(cases: u64, seed: u64) -> bool {
    let mut tally = Tally::default();
    for mistake in mistakes::all() {
        let notices = Notices::of(&mistake, cases, seed);
        println!("{}: {}", mistake.name, notices.text());
        if notices.board.is_none() && notices.programs.is_none() {
            let what = "no comparison of states or programs notices it";
            tally.count(mistake.name, Err(Difference::new(what)));
        } else if mistake.breaks_sampling && notices.sampling.is_none() {
            let what = "the sampling check does not notice it";
            tally.count(mistake.name, Err(Difference::new(what)));
        } else {
            tally.count(mistake.name, Ok(()));
        }
    }
    tally.end()
}

/// The number of the first case that notices a mistake, by comparison.
struct Notices {
    board: Option<u64>,
    programs: Option<u64>,
    sampling: Option<u64>,
}

impl Notices {
    fn of(mistake: &Mistake, cases: u64, seed: u64) -> Notices {
        let mistaken = &mistake.model;
        let sampling = |number: &u64| own::sampling(mistaken, seed, *number).is_err();
        Notices {
            board: (0..cases).find(|number| board_notices(mistaken, seed, *number)),
            programs: (0..cases).find(|number| programs_notice(mistaken, seed, *number)),
            sampling: match mistake.breaks_sampling {
                true => (0..cases).find(sampling),
                false => None,
            },
        }
    }

    fn text(&self) -> String {
        let noticed = |by: &str, case: Option<u64>| case.map(|case| format!("{by} case {case}"));
        let by = vec![
            noticed("board", self.board),
            noticed("programs", self.programs),
            noticed("sampling", self.sampling),
        ];
        let by: Vec<String> = by.into_iter().flatten().collect();
        match by.is_empty() {
            true => "not noticed".to_string(),
            false => format!("noticed by {}", by.join(", ")),
        }
    }
}

fn board_notices(mistaken: &Model, seed: u64, number: u64) -> bool {
    let (right, other) = (ModelBoard(&RIGHT), ModelBoard(mistaken));
    let pair = Pair::new(&right, &other);
    board_cases::generated(&pair, seed, number).1.is_err()
}

fn programs_notice(mistaken: &Model, seed: u64, number: u64) -> bool {
    let (right, other) = (ModelRunner(&RIGHT), ModelRunner(mistaken));
    let programs = Programs::new(&right, &other);
    program_cases::generated(&programs, seed, number).1.is_err()
}
