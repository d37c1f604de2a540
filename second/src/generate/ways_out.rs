//! States from outside that are out of range in a single way.

use crate::model::state::State;
use crate::model::state_words::{start_of, state_words, PARTS};
use crate::model::tables::{CONNECTION_WORDS, GREATEST_MULTIPLE, TASK_WORDS};

/// A single way out of range: which word, and what it becomes.
#[derive(Clone, Copy)]
pub struct WayOut {
    pub index: usize,
    pub word: u32,
}

impl WayOut {
    pub fn taken_from(self, state: &State) -> Vec<u32> {
        let mut words = state_words(state);
        words[self.index] = self.word;
        words
    }
}

/// The ways out of range that a state has, sorted by the part they concern: for each word of the
/// part the values next to its range and the ends of what it can hold.
pub fn sorts(state: &State) -> Vec<Vec<WayOut>> {
    let within_words = vec![
        head_ways(state),
        task_ways(state),
        recorded_ways(state),
        connection_ways(state),
        order_ways(state),
    ];
    let sorts = within_words.into_iter().chain(too_wide());
    sorts.filter(|sort| !sort.is_empty()).collect()
}

fn ways(index: usize, words: &[u32]) -> impl Iterator<Item = WayOut> + '_ {
    words.iter().map(move |word| WayOut { index, word: *word })
}

/// The counts, the common multiple and the cycle.
fn head_ways(state: &State) -> Vec<WayOut> {
    let mut out = Vec::new();
    out.extend(ways(0, &[0, 33, 256, u32::MAX]));
    out.extend(ways(1, &[65, 256, u32::MAX]));
    out.extend(ways(2, &[0, GREATEST_MULTIPLE + 1, u32::MAX]));
    out.extend(ways(3, &[state.multiple, state.multiple + 1, u32::MAX]));
    out
}

fn task_ways(state: &State) -> Vec<WayOut> {
    let mut out = Vec::new();
    for number in 0..state.task_count {
        let row = state.tasks[number];
        let start = start_of("task") + TASK_WORDS * number;
        out.extend(ways(start, &[0, 10_001, 65_535]));
        out.extend(ways(start + 1, &[0, row.period + 1, 65_535]));
        out.extend(ways(start + 2, &[0, row.deadline + 1, 65_535]));
    }
    out
}

fn recorded_ways(state: &State) -> Vec<WayOut> {
    let start = start_of("dispatch cycle");
    let words = [state.multiple, u32::MAX];
    let numbers = 0..state.task_count;
    numbers
        .flat_map(|number| ways(start + number, &words).collect::<Vec<_>>())
        .collect()
}

fn connection_ways(state: &State) -> Vec<WayOut> {
    let mut out = Vec::new();
    for row in 0..state.connection_count {
        let start = start_of("connection") + CONNECTION_WORDS * row;
        let no_task = [state.task_count as u32, 255];
        out.extend(ways(start, &no_task));
        out.extend(ways(start + 1, &no_task));
    }
    out
}

/// An entry that is no task, or one that repeats another.
fn order_ways(state: &State) -> Vec<WayOut> {
    let mut out = Vec::new();
    for place in 0..state.task_count {
        let index = start_of("order") + place;
        out.extend(ways(index, &[state.task_count as u32, 255]));
        if state.task_count > 1 {
            let next = state.order[(place + 1) % state.task_count];
            out.extend(ways(index, &[next as u32]));
        }
    }
    out
}

/// Words too wide for their fields, part by part, also past the counts.
fn too_wide() -> impl Iterator<Item = Vec<WayOut>> {
    PARTS.iter().map(|part| {
        let start = start_of(part.name);
        let limits = part.limits.repeat(part.rows);
        let mut out = Vec::new();
        for (place, limit) in limits.into_iter().enumerate() {
            if limit < u32::MAX {
                out.extend(ways(start + place, &[limit + 1, 65_536, u32::MAX]));
            }
        }
        out
    })
}
