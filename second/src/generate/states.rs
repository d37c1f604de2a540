//! States from outside that are in range, though no run reaches them.

use super::calls::Habit;
use super::chance::Chance;
use super::shapes::{small, task};
use crate::model::rules::RIGHT;
use crate::model::state::{Phase, State};
use crate::model::tables::{Connection, GREATEST_MULTIPLE, MOST_CONNECTIONS, MOST_TASKS};

const PHASES: [Phase; 3] = [Phase::Idle, Phase::Waiting, Phase::Started];

pub fn in_range(chance: &mut Chance) -> State {
    match chance.below(3) {
        0 => near_a_run(chance),
        _ => thrown_together(chance),
    }
}

/// A state that a run reaches, with a few of its values changed.
fn near_a_run(chance: &mut Chance) -> State {
    let words = small(chance).to_words();
    let (_, mut state) = RIGHT.fresh_start(&words.tasks, &words.connections);
    let habit = Habit::keeping_deadlines(chance);
    for _ in 0..chance.below(40) {
        state = match habit.completes(chance, &RIGHT, &state) {
            true => RIGHT.complete(&state, chance.word()).1,
            false => RIGHT.tick(&state).1,
        };
    }
    for _ in 0..chance.below(4) {
        change_a_value(chance, &mut state);
    }
    state
}

fn change_a_value(chance: &mut Chance, state: &mut State) {
    let tasks = state.task_count;
    let task = chance.index(tasks);
    match chance.below(9) {
        0 => state.cycle = cycle(chance, state.multiple),
        1 => state.ticked = !state.ticked,
        2 => state.dispatched[task] = cycle(chance, state.multiple),
        3 => state.order.swap(task, chance.index(tasks)),
        4 => state.outputs[task] = chance.word(),
        5 => state.halted = true,
        _ => state.phases[task] = chance.pick(&PHASES),
    }
}

/// A state whose parts need not belong together: any order, any phases, any words, circles,
/// periods the common multiple does not fit, and rubbish past the counts.
fn thrown_together(chance: &mut Chance) -> State {
    let mut state = State::zeros();
    if chance.one_in(2) {
        fill_with_rubbish(chance, &mut state);
    }
    state.task_count = chance.pick(&[1, 2, 3, 3, 4, 5, 8, 31, 32]);
    state.connection_count = chance.pick(&[0, 1, 2, 4, 8, 8, 16, 63, 64]);
    state.multiple = match chance.below(4) {
        0 => chance.pick(&[1, GREATEST_MULTIPLE]),
        1 => chance.between(1, GREATEST_MULTIPLE),
        _ => chance.between(1, 60),
    };
    state.cycle = cycle(chance, state.multiple);
    state.ticked = !chance.one_in(4);
    state.halted = chance.one_in(16);
    fill_tasks(chance, &mut state);
    fill_connections(chance, &mut state);
    state
}

/// Cycle 0, the last cycle and cycles between.
fn cycle(chance: &mut Chance, multiple: u32) -> u32 {
    match chance.below(4) {
        0 => 0,
        1 => multiple - 1,
        _ => chance.below(multiple),
    }
}

fn fill_tasks(chance: &mut Chance, state: &mut State) {
    let longest = chance.pick(&[1, 3, 12, 10_000]);
    let busy = chance.pick(&[1, 2, 8]);
    let order = chance.shuffled(state.task_count);
    state.order[..order.len()].copy_from_slice(&order);
    // Few different recorded cycles, so that equal ones are common.
    let recorded = [cycle(chance, state.multiple), cycle(chance, state.multiple)];
    for number in 0..state.task_count {
        let period = chance.between(1, longest);
        state.tasks[number] = task(chance, period);
        state.phases[number] = match chance.one_in(busy) {
            true => chance.pick(&PHASES),
            false => Phase::Idle,
        };
        state.outputs[number] = chance.word();
        state.dispatched[number] = chance.pick(&recorded);
    }
}

fn fill_connections(chance: &mut Chance, state: &mut State) {
    for row in 0..state.connection_count {
        state.connections[row] = Connection {
            sender: chance.index(state.task_count),
            receiver: chance.index(state.task_count),
            kind: chance.below(2),
        };
        state.buffers[row] = chance.word();
        state.inputs[row] = chance.word();
    }
}

/// Values that fit their words but not their sizes; only what is past the counts keeps them.
fn fill_with_rubbish(chance: &mut Chance, state: &mut State) {
    for number in 0..MOST_TASKS {
        let row = &mut state.tasks[number];
        row.period = chance.below(65_536);
        row.deadline = chance.below(65_536);
        row.compute = chance.below(65_536);
        row.criticality = chance.below(256);
        row.flag = chance.below(2);
        state.order[number] = chance.index(256);
        state.phases[number] = chance.pick(&PHASES);
        state.outputs[number] = chance.word();
        state.dispatched[number] = chance.word();
    }
    for row in 0..MOST_CONNECTIONS {
        state.connections[row] = Connection {
            sender: chance.index(256),
            receiver: chance.index(256),
            kind: chance.below(2),
        };
        state.buffers[row] = chance.word();
        state.inputs[row] = chance.word();
    }
}
