//! Generated cases for the two programs, compared byte by byte.

use super::bench::SESSION;
use super::processes::{Named, Runner};
use super::report::{Difference, Outcome};
use super::show;
use crate::generate::chance::Chance;
use crate::generate::files;
use crate::generate::lines::{self, BAD_LINES};
use std::cell::RefCell;
use std::collections::BTreeMap;

/// The two programs of both sides.
pub struct Programs<'a> {
    right: &'a dyn Runner,
    other: &'a dyn Runner,
    /// How often each sort of line was printed, numbers left out save those of refusals.
    met: RefCell<BTreeMap<String, u64>>,
}

/// The cases that need no generator: the bench's session, each bad line, odd names of the file,
/// and inputs longer than a pipe holds.
pub fn fixed(programs: &Programs) -> Vec<(&'static str, Outcome)> {
    let list = |file: &[u8]| programs.list(file);
    let step = |named: Named, calls: &[u8]| programs.step(&named, calls);
    let holding = |file: &[u8]| Named::Holding(file.to_vec());
    let long_file = [SESSION, &[b'x'; 200_000]].concat();
    let bad_lines = BAD_LINES.join(&b"\nt\nc 5\n"[..]);
    let long_line = [&[b'c'; 200_000], &b"\nt\n"[..]].concat();
    let ticks = b"t\n".repeat(50_000);
    vec![
        ("list of the session", list(SESSION)),
        ("list of nothing", list(b"")),
        ("list of a long file", list(&long_file)),
        ("step without calls", step(holding(SESSION), b"")),
        ("step through bad lines", step(holding(SESSION), &bad_lines)),
        (
            "step through a long line",
            step(holding(SESSION), &long_line),
        ),
        ("step through many ticks", step(holding(SESSION), &ticks)),
        ("step with no file named", step(Named::NotNamed, b"t\n")),
        ("step with a file not there", step(Named::NotThere, b"t\n")),
        ("step with a folder", step(Named::Folder, b"t\n")),
        ("step with an empty file", step(holding(b""), b"t\n")),
        ("step with a long file", step(holding(&long_file), b"t\n")),
    ]
}

/// The generated case of a number, with its name.
pub fn generated(programs: &Programs, seed: u64, number: u64) -> (String, Outcome) {
    let mut chance = Chance::of_case(seed, number);
    let (sort, outcome) = match number % 3 {
        0 => ("list", programs.list(&files::any(&mut chance))),
        _ => ("step", generated_step(programs, &mut chance)),
    };
    (format!("case {number} of seed {seed} ({sort})"), outcome)
}

/// Most files are whole, so that the calls are answered.
fn generated_step(programs: &Programs, chance: &mut Chance) -> Outcome {
    let file = match chance.below(4) {
        0 => files::any(chance),
        _ => files::whole(chance),
    };
    let calls = lines::any(chance, &file);
    let named = match chance.below(24) {
        0 => Named::NotNamed,
        1 => Named::NotThere,
        2 => Named::Folder,
        _ => Named::Holding(file),
    };
    programs.step(&named, &calls)
}

impl<'a> Programs<'a> {
    pub fn new(right: &'a dyn Runner, other: &'a dyn Runner) -> Programs<'a> {
        Programs {
            right,
            other,
            met: RefCell::default(),
        }
    }

    pub fn print_met(&self) {
        let met = self.met.borrow();
        let lines: Vec<String> = met
            .iter()
            .map(|(line, times)| format!("{line} x{times}"))
            .collect();
        println!("lines met: {}", lines.join(", "));
    }

    fn meet(&self, output: &Result<Vec<u8>, String>) {
        let output = String::from_utf8_lossy(output.as_deref().unwrap_or_default());
        for line in output.lines() {
            let words: Vec<&str> = line.split(' ').collect();
            let sort = match words[..] {
                ["refused", number, _] => format!("refused {number}"),
                ["bad", "line"] => line.to_string(),
                [_, _, _, _] => "line of a list".to_string(),
                _ => words[0].to_string(),
            };
            *self.met.borrow_mut().entry(sort).or_default() += 1;
        }
    }

    fn list(&self, file: &[u8]) -> Outcome {
        let right = self.right.list(file);
        self.meet(&right);
        same(right, self.other.list(file)).map_err(|difference| difference.with(show::file(file)))
    }

    fn step(&self, named: &Named, calls: &[u8]) -> Outcome {
        let right = self.right.step(named, calls);
        self.meet(&right);
        let other = self.other.step(named, calls);
        same(right, other).map_err(|difference| {
            let file = match named {
                Named::Holding(file) => show::file(file),
                Named::NotNamed => "no file named".to_string(),
                Named::NotThere => "a file that is not there".to_string(),
                Named::Folder => "a folder in place of the file".to_string(),
            };
            difference.with(file).with(show::calls(calls))
        })
    }
}

/// Byte by byte; a difference is told by its first line.
fn same(right: Result<Vec<u8>, String>, other: Result<Vec<u8>, String>) -> Outcome {
    let right = right.map_err(Difference::new)?;
    let other = other.map_err(Difference::new)?;
    if right == other {
        return Ok(());
    }
    let lines = |output: &[u8]| -> Vec<String> {
        let lines = output.split_inclusive(|byte| *byte == b'\n');
        lines
            .map(|line| String::from_utf8_lossy(line).into_owned())
            .collect()
    };
    let (right, other) = (lines(&right), lines(&other));
    let longer = right.len().max(other.len());
    let differs = (0..longer).find(|line| right.get(*line) != other.get(*line));
    let line = differs.unwrap_or(0);
    let shown = |lines: &[String]| lines.get(line).cloned().unwrap_or("nothing".to_string());
    Err(Difference::new(format!(
        "line {} should be {:?}, is {:?}",
        line + 1,
        shown(&right),
        shown(&other)
    )))
}
