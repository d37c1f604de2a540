//! Two boards under the same calls, every word compared after each.

use super::report::{Coverage, Difference};
use super::show;
use crate::model::answer::Call;
use crate::model::rules::Model;
use crate::model::state_words::name_of;
use crate::model::tables::TableWords;
use std::cell::RefCell;
use std::fmt::LowerHex;

/// The five functions of the C library.
pub trait Board {
    fn read(&self, file: &[u8], tasks: &mut [u16], connections: &mut [u16]) -> u64;
    fn plan(&self, tasks: &[u16], connections: &[u16], plan: &mut [u32]) -> u64;
    fn fresh(&self, tasks: &[u16], connections: &[u16], state: &mut [u32]) -> u64;
    fn tick(&self, state: &mut [u32]) -> u64;
    fn complete(&self, state: &mut [u32], word: u32) -> u64;
}

/// A model behind the same five functions.
pub struct ModelBoard<'a>(pub &'a Model);

impl Board for ModelBoard<'_> {
    fn read(&self, file: &[u8], tasks: &mut [u16], connections: &mut [u16]) -> u64 {
        self.0.read(file, tasks, connections).word()
    }

    fn plan(&self, tasks: &[u16], connections: &[u16], plan: &mut [u32]) -> u64 {
        self.0.lent_plan(tasks, connections, plan)
    }

    fn fresh(&self, tasks: &[u16], connections: &[u16], state: &mut [u32]) -> u64 {
        self.0.lent_fresh(tasks, connections, state)
    }

    fn tick(&self, state: &mut [u32]) -> u64 {
        self.0.lent_call(state, Call::Tick)
    }

    fn complete(&self, state: &mut [u32], word: u32) -> u64 {
        self.0.lent_call(state, Call::Complete(word))
    }
}

/// Words of which the first ones are lent. The rest stand guard: a write past the words lent shows
/// in them.
#[derive(Clone)]
pub struct Lent<W> {
    pub words: Vec<W>,
    pub count: usize,
}

const GUARDS: usize = 8;

impl<W: Copy> Lent<W> {
    pub fn new(mut words: Vec<W>, guard: W) -> Lent<W> {
        let count = words.len();
        words.extend([guard; GUARDS]);
        Lent { words, count }
    }

    pub fn lent(&mut self) -> &mut [W] {
        &mut self.words[..self.count]
    }
}

pub struct Pair<'a> {
    right: &'a dyn Board,
    other: &'a dyn Board,
    pub coverage: RefCell<Coverage>,
}

impl<'a> Pair<'a> {
    pub fn new(right: &'a dyn Board, other: &'a dyn Board) -> Pair<'a> {
        Pair {
            right,
            other,
            coverage: RefCell::default(),
        }
    }

    pub fn read(
        &self,
        file: &[u8],
        tasks: &Lent<u16>,
        connections: &Lent<u16>,
    ) -> Result<u64, Difference> {
        let run = |board: &dyn Board| {
            let (mut tasks, mut connections) = (tasks.clone(), connections.clone());
            let answer = board.read(file, tasks.lent(), connections.lent());
            (answer, tasks, connections)
        };
        let (right, other) = (run(self.right), run(self.other));
        let place = |index| format!("word {index}");
        self.same_answer("read", right.0, other.0)
            .and_then(|()| same_words("task table", &right.1, &other.1, place))
            .and_then(|()| same_words("connection table", &right.2, &other.2, place))
            .map(|()| right.0)
            .map_err(|difference| {
                let room = format!("words lent: {} and {}", tasks.count, connections.count);
                difference.with(show::file(file)).with(room)
            })
    }

    pub fn plan(&self, tables: &TableWords, plan: &Lent<u32>) -> Result<u64, Difference> {
        let run = |board: &dyn Board| {
            let mut plan = plan.clone();
            let answer = board.plan(&tables.tasks, &tables.connections, plan.lent());
            (answer, plan)
        };
        let (right, other) = (run(self.right), run(self.other));
        self.same_answer("plan", right.0, other.0)
            .and_then(|()| same_words("plan", &right.1, &other.1, |index| format!("word {index}")))
            .map(|()| right.0)
            .map_err(|difference| {
                let room = format!("words lent: {}", plan.count);
                difference.with(show::tables(tables)).with(room)
            })
    }

    /// Leaves the right board's state in the words lent.
    pub fn fresh(&self, tables: &TableWords, state: &mut Lent<u32>) -> Result<u64, Difference> {
        let run = |board: &dyn Board| {
            let mut state = state.clone();
            let answer = board.fresh(&tables.tasks, &tables.connections, state.lent());
            (answer, state)
        };
        let (right, other) = (run(self.right), run(self.other));
        self.same_answer("fresh", right.0, other.0)
            .and_then(|()| same_words("state", &right.1, &other.1, name_of))
            .map_err(|difference| {
                let room = format!("words lent: {}", state.count);
                difference.with(show::tables(tables)).with(room)
            })?;
        *state = right.1;
        Ok(right.0)
    }

    /// Leaves the right board's state in the words lent.
    pub fn call(&self, state: &mut Lent<u32>, call: Call) -> Result<u64, Difference> {
        let run = |board: &dyn Board| {
            let mut state = state.clone();
            let answer = match call {
                Call::Tick => board.tick(state.lent()),
                Call::Complete(word) => board.complete(state.lent(), word),
            };
            (answer, state)
        };
        let name = match call {
            Call::Tick => "tick",
            Call::Complete(_) => "complete",
        };
        let (right, other) = (run(self.right), run(self.other));
        self.same_answer(name, right.0, other.0)
            .and_then(|()| same_words("state", &right.1, &other.1, name_of))
            .map_err(|mut difference| {
                let lines = show::state(&state.words[..state.count]);
                difference.reproduction.extend(lines);
                difference.with(format!("call: {}", call.text()))
            })?;
        *state = right.1;
        Ok(right.0)
    }

    fn same_answer(&self, call: &'static str, right: u64, other: u64) -> Result<(), Difference> {
        self.coverage.borrow_mut().meet(call, right);
        if right == other {
            return Ok(());
        }
        let (right, other) = (answer_text(right), answer_text(other));
        Err(Difference::new(format!(
            "{call} should answer {right}, answers {other}"
        )))
    }
}

fn same_words<W: PartialEq + LowerHex>(
    of_what: &str,
    right: &Lent<W>,
    other: &Lent<W>,
    name: impl Fn(usize) -> String,
) -> Result<(), Difference> {
    let mut words = right.words.iter().zip(&other.words);
    let Some(index) = words.position(|(right, other)| right != other) else {
        return Ok(());
    };
    let (right, other) = (&right.words[index], &other.words[index]);
    Err(Difference::new(format!(
        "{of_what}, {}: should be {right:x}, is {other:x}",
        name(index)
    )))
}

fn answer_text(answer: u64) -> String {
    let (kind, number, value) = (answer % 256, answer / 256 % 256, answer / 65_536);
    match kind {
        0 => format!("refused {number} {value}"),
        1 => format!("running {value}"),
        2 => "idle".to_string(),
        3 => format!("missed {value}"),
        4 => "accepted".to_string(),
        5 => format!("read {number} {value}"),
        _ => format!("{answer:#x}"),
    }
}
