//! Counting of cases and the report of what differed.

use std::collections::BTreeMap;

/// What differed first in a case, and what is needed to see it again.
#[derive(Debug)]
pub struct Difference {
    pub what: String,
    pub reproduction: Vec<String>,
}

impl Difference {
    pub fn new(what: impl Into<String>) -> Difference {
        Difference {
            what: what.into(),
            reproduction: Vec::new(),
        }
    }

    pub fn with(mut self, line: impl Into<String>) -> Difference {
        self.reproduction.push(line.into());
        self
    }
}

pub type Outcome = Result<(), Difference>;

/// Differences shown in full; later ones are only named.
const SHOWN: u64 = 3;

#[derive(Default)]
pub struct Tally {
    passed: u64,
    failed: u64,
}

impl Tally {
    pub fn count(&mut self, name: &str, outcome: Outcome) {
        let Err(difference) = outcome else {
            self.passed += 1;
            return;
        };
        self.failed += 1;
        println!("failed {name}: {}", difference.what);
        if self.failed <= SHOWN {
            for line in difference.reproduction {
                println!("    {line}");
            }
        }
    }

    /// Prints the last line and says whether nothing failed.
    pub fn end(self) -> bool {
        println!("{} passed, {} failed", self.passed, self.failed);
        self.failed == 0
    }
}

/// How often each answer was met, by call, so that a report shows what its cases reached.
#[derive(Default)]
pub struct Coverage {
    met: BTreeMap<(&'static str, u64, u64), u64>,
}

impl Coverage {
    /// Counts an answer. The numbers of tasks read and the places are left out.
    pub fn meet(&mut self, call: &'static str, answer: u64) {
        let kind = answer % 256;
        let number = if kind == 0 { answer / 256 % 256 } else { 0 };
        *self.met.entry((call, kind, number)).or_default() += 1;
    }

    pub fn has(&self, call: &'static str, kind: u64, number: u64) -> bool {
        self.met.contains_key(&(call, kind, number))
    }

    pub fn print(&self) {
        let mut lines: BTreeMap<&str, Vec<String>> = BTreeMap::new();
        for ((call, kind, number), times) in &self.met {
            let answer = match kind {
                0 => format!("refused {number}"),
                1 => "running".to_string(),
                2 => "idle".to_string(),
                3 => "missed".to_string(),
                4 => "accepted".to_string(),
                _ => "read".to_string(),
            };
            lines
                .entry(call)
                .or_default()
                .push(format!("{answer} x{times}"));
        }
        for (call, answers) in lines {
            println!("met by {call}: {}", answers.join(", "));
        }
    }
}
