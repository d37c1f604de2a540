//! The executive: fresh start, tick, completion.

use super::answer::{Answer, Call, Refusal};
use super::planner::Plan;
use super::rules::Model;
use super::state::{Phase, State};
use super::tables::{Connection, Tables, DELAYED, UNDELAYED};

pub fn fresh_start(model: &Model, task_words: &[u16], connection_words: &[u16]) -> (Answer, State) {
    let (answer, plan) = model.plan(task_words, connection_words);
    if let Answer::Refused(_) = answer {
        return (answer, model.refused_start());
    }
    let tables = Tables::from_words(task_words, connection_words);
    (Answer::Idle, model.fresh_state(&tables, &plan))
}

pub fn refused_start(_: &Model) -> State {
    State {
        halted: true,
        ..State::zeros()
    }
}

pub fn fresh_state(_: &Model, tables: &Tables, plan: &Plan) -> State {
    let mut state = State::zeros();
    state.task_count = tables.tasks.len();
    state.connection_count = tables.connections.len();
    state.multiple = plan.multiple;
    state.tasks[..tables.tasks.len()].copy_from_slice(&tables.tasks);
    state.connections[..tables.connections.len()].copy_from_slice(&tables.connections);
    state.order = plan.order.map(|task| task as usize);
    state
}

pub fn call(model: &Model, given: &State, call: Call) -> (Answer, State) {
    match call {
        Call::Tick => model.tick(given),
        Call::Complete(word) => model.complete(given, word),
    }
}

pub fn tick(model: &Model, given: &State) -> (Answer, State) {
    if let Some(refusal) = model.tick_refusal(given) {
        return (Answer::Refused(refusal), given.clone());
    }
    if let Some(task) = model.missed(given) {
        return (Answer::Missed(task), model.halt(given));
    }
    let mut state = given.clone();
    model.deliver_and_dispatch(&mut state);
    let answer = model.choose(&mut state);
    state.cycle = model.next_cycle(given);
    state.ticked = true;
    (answer, state)
}

pub fn complete(model: &Model, given: &State, word: u32) -> (Answer, State) {
    if let Some(refusal) = model.completion_refusal(given) {
        return (Answer::Refused(refusal), given.clone());
    }
    let mut state = given.clone();
    if let Some(task) = model.running_task(given) {
        model.finish(&mut state, task, word);
    }
    let answer = model.choose(&mut state);
    (answer, state)
}

/// 16, then 15.
pub fn tick_refusal(model: &Model, state: &State) -> Option<Refusal> {
    model.refusal_16(state).or_else(|| model.refusal_15(state))
}

/// 16, then 15, then 14.
pub fn completion_refusal(model: &Model, state: &State) -> Option<Refusal> {
    model
        .refusal_16(state)
        .or_else(|| model.refusal_15(state))
        .or_else(|| model.refusal_14(state))
}

pub fn refusal_15(_: &Model, state: &State) -> Option<Refusal> {
    state.halted.then_some(Refusal::new(15, 0))
}

pub fn refusal_14(model: &Model, state: &State) -> Option<Refusal> {
    let none_runs = model.running_task(state).is_none();
    none_runs.then_some(Refusal::new(14, 0))
}

/// The first tick of all goes by the state's mark, whatever its cycle.
pub fn deadline_falls(_: &Model, state: &State, task: usize) -> bool {
    let row = state.tasks[task];
    state.ticked && state.cycle % row.period == row.deadline % row.period
}

/// Step 1: the lowest task that is not idle when its deadline falls.
pub fn missed(model: &Model, state: &State) -> Option<usize> {
    (0..state.task_count)
        .find(|task| model.deadline_falls(state, *task) && state.phases[*task] != Phase::Idle)
}

/// A miss changes the halted mark alone.
pub fn halt(_: &Model, given: &State) -> State {
    State {
        halted: true,
        ..given.clone()
    }
}

/// Steps 2 and 3, in that order.
pub fn deliver_and_dispatch(model: &Model, state: &mut State) {
    model.deliver_at_deadlines(state);
    model.dispatch_all(state);
}

/// Step 2: outputs go to the buffers of delayed connections when the deadline falls.
pub fn deliver_at_deadlines(model: &Model, state: &mut State) {
    for row in 0..state.connection_count {
        let Connection { sender, kind, .. } = state.connections[row];
        if kind == DELAYED && model.deadline_falls(state, sender) {
            state.buffers[row] = state.outputs[sender];
        }
    }
}

/// Step 3.
pub fn dispatch_all(model: &Model, state: &mut State) {
    for task in 0..state.task_count {
        if state.cycle % state.tasks[task].period == 0 {
            model.dispatch(state, task);
        }
    }
}

/// A task that is not idle yet (in a state from outside) waits again.
pub fn dispatch(model: &Model, state: &mut State, task: usize) {
    model.take_inputs(state, task, DELAYED);
    state.phases[task] = Phase::Waiting;
    state.dispatched[task] = state.cycle;
}

/// Step 4.
pub fn choose(model: &Model, state: &mut State) -> Answer {
    let Some(task) = model.running_task(state) else {
        return Answer::Idle;
    };
    if state.phases[task] == Phase::Waiting {
        model.start(state, task);
    }
    Answer::Running(task)
}

pub fn start(model: &Model, state: &mut State, task: usize) {
    model.take_inputs(state, task, UNDELAYED);
    state.phases[task] = Phase::Started;
}

/// Step 5.
pub fn next_cycle(_: &Model, given: &State) -> u32 {
    let next = given.cycle + 1;
    if next == given.multiple {
        return 0;
    }
    next
}

/// The highest-priority task that is not idle, waiting or started.
pub fn running_task(_: &Model, state: &State) -> Option<usize> {
    let mut order = state.order[..state.task_count].iter().copied();
    order.find(|task| state.phases[*task] != Phase::Idle)
}

/// A task's buffers of one kind go to their inputs.
pub fn take_inputs(_: &Model, state: &mut State, task: usize, kind: u32) {
    for row in 0..state.connection_count {
        let connection = state.connections[row];
        if connection.receiver == task && connection.kind == kind {
            state.inputs[row] = state.buffers[row];
        }
    }
}

/// The end of the running task's job: the word is its output, it becomes idle, and the word
/// goes to the buffers of the receivers dispatched together with it.
pub fn finish(model: &Model, state: &mut State, task: usize, word: u32) {
    state.outputs[task] = word;
    state.phases[task] = Phase::Idle;
    for row in 0..state.connection_count {
        let connection = state.connections[row];
        if connection.sender == task && model.receives_at_completion(state, &connection) {
            state.buffers[row] = word;
        }
    }
}

pub fn receives_at_completion(_: &Model, state: &State, row: &Connection) -> bool {
    row.is_undelayed() && state.dispatched[row.sender] == state.dispatched[row.receiver]
}
