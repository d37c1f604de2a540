//! Refusal 16: a state out of range.

use super::answer::Refusal;
use super::rules::Model;
use super::state::State;
use super::tables::{GREATEST_MULTIPLE, MOST_CONNECTIONS, MOST_TASKS};

/// Judges what a state holds within its counts, never what is past them. Refusals 5 to 8 are not
/// asked of a state, nor whether its common multiple fits its periods, nor any word it carries.
pub fn refusal_16(model: &Model, state: &State) -> Option<Refusal> {
    // The counts come first: the other questions look at rows within them.
    let in_range = model.counts_fit(state)
        && model.rows_fit(state)
        && model.cycles_fit(state)
        && model.order_fits(state);
    (!in_range).then_some(Refusal::new(16, 0))
}

pub fn counts_fit(_: &Model, state: &State) -> bool {
    (1..=MOST_TASKS).contains(&state.task_count) && state.connection_count <= MOST_CONNECTIONS
}

pub fn rows_fit(model: &Model, state: &State) -> bool {
    let mut tasks = state.tasks[..state.task_count].iter();
    let mut rows = state.rows().iter();
    tasks.all(|task| model.task_fits(task))
        && rows.all(|row| model.connection_fits(row, state.task_count))
}

/// The common multiple, the cycle and the recorded dispatch cycles.
pub fn cycles_fit(_: &Model, state: &State) -> bool {
    let mut recorded = state.dispatched[..state.task_count].iter();
    (1..=GREATEST_MULTIPLE).contains(&state.multiple)
        && state.cycle < state.multiple
        && recorded.all(|cycle| *cycle < state.multiple)
}

/// The order names each task once: with as many entries as tasks, each task being there is
/// enough.
pub fn order_fits(_: &Model, state: &State) -> bool {
    let order = &state.order[..state.task_count];
    (0..state.task_count).all(|task| order.contains(&task))
}
