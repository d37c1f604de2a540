//! Mistakes about refusal 16.

use super::Mistake;
use crate::model::rules::{Model, RIGHT};
use crate::model::state::{Phase, State};
use crate::model::tables::{Connection, Tables, Task};

pub fn mistakes() -> Vec<Mistake> {
    vec![
        Mistake::new("16: 32 tasks are out of range", THIRTY_TWO_TASKS),
        Mistake::new(
            "16: 64 connections are out of range",
            SIXTY_FOUR_CONNECTIONS,
        ),
        Mistake::new("16: no connections are out of range", NO_CONNECTIONS),
        Mistake::new("16: compute is not judged", COMPUTE_UNJUDGED),
        Mistake::new("16: connections are not judged", CONNECTIONS_UNJUDGED),
        Mistake::new("16: the order may repeat a task", ORDER_REPEATS),
        Mistake::new("16: recorded cycles are not judged", RECORDED_UNJUDGED),
        Mistake::new("16: the cycle is not judged", CYCLE_UNJUDGED),
        Mistake::new("16: the cycle may equal the multiple", CYCLE_AT_MULTIPLE),
        Mistake::new("16: 720,720 is out of range", GREATEST_OUT),
        Mistake::new("16: the multiple has no limit", MULTIPLE_UNLIMITED),
        Mistake::new("16: the multiple has to fit the periods", MULTIPLE_FITS),
        Mistake::new("16: task rows past the count are judged", PAST_COUNT_JUDGED),
        Mistake::new(
            "16: refusals 5 to 7 are asked of the state",
            FIVE_TO_SEVEN_ASKED,
        ),
        Mistake::new("16: a fresh state has to be all idle", FRESH_ALL_IDLE),
        Mistake::new("16: the running task has to be started", RUNNING_STARTED),
    ]
}

const THIRTY_TWO_TASKS: Model = Model {
    counts_fit: |_, state| RIGHT.counts_fit(state) && state.task_count < 32,
    ..RIGHT
};

const SIXTY_FOUR_CONNECTIONS: Model = Model {
    counts_fit: |_, state| RIGHT.counts_fit(state) && state.connection_count < 64,
    ..RIGHT
};

const NO_CONNECTIONS: Model = Model {
    counts_fit: |_, state| RIGHT.counts_fit(state) && state.connection_count > 0,
    ..RIGHT
};

const COMPUTE_UNJUDGED: Model = Model {
    rows_fit: |_, state| {
        let mut state = state.clone();
        for task in &mut state.tasks {
            task.compute = 1;
        }
        RIGHT.rows_fit(&state)
    },
    ..RIGHT
};

/// Asks of a row only what a tick needs in order to end: a sender with a period.
const CONNECTIONS_UNJUDGED: Model = Model {
    rows_fit: |model, state| {
        let sender = |row: &Connection| state.tasks.get(row.sender);
        let ends = |row: &Connection| sender(row).is_some_and(|task| task.period > 0);
        let mut tasks = state.tasks[..state.task_count].iter();
        tasks.all(|task| model.task_fits(task)) && state.rows().iter().all(ends)
    },
    receives_at_completion: |_, state, row| {
        row.receiver < 32 && RIGHT.receives_at_completion(state, row)
    },
    ..RIGHT
};

const ORDER_REPEATS: Model = Model {
    order_fits: |_, state| {
        let mut order = state.order[..state.task_count].iter();
        order.all(|task| *task < state.task_count)
    },
    ..RIGHT
};

const RECORDED_UNJUDGED: Model = Model {
    cycles_fit: |_, state| {
        let dispatched = [0; 32];
        RIGHT.cycles_fit(&State {
            dispatched,
            ..state.clone()
        })
    },
    ..RIGHT
};

const CYCLE_UNJUDGED: Model = Model {
    cycles_fit: |_, state| {
        // One number is still kept out, so that the next cycle can be told.
        let cycle = 0;
        state.cycle < u32::MAX
            && RIGHT.cycles_fit(&State {
                cycle,
                ..state.clone()
            })
    },
    ..RIGHT
};

const CYCLE_AT_MULTIPLE: Model = Model {
    cycles_fit: |_, state| {
        let at_multiple = state.cycle == state.multiple;
        let cycle = if at_multiple { 0 } else { state.cycle };
        RIGHT.cycles_fit(&State {
            cycle,
            ..state.clone()
        })
    },
    ..RIGHT
};

const GREATEST_OUT: Model = Model {
    cycles_fit: |_, state| RIGHT.cycles_fit(state) && state.multiple < 720_720,
    ..RIGHT
};

const MULTIPLE_UNLIMITED: Model = Model {
    cycles_fit: |_, state| {
        let mut recorded = state.dispatched[..state.task_count].iter();
        state.cycle < state.multiple && recorded.all(|cycle| *cycle < state.multiple)
    },
    ..RIGHT
};

const MULTIPLE_FITS: Model = Model {
    cycles_fit: |_, state| {
        let mut tasks = state.tasks[..state.task_count].iter();
        RIGHT.cycles_fit(state) && tasks.all(|task| state.multiple % task.period == 0)
    },
    ..RIGHT
};

/// Judges task rows that a state holds past its count, unless they are all zeros.
const PAST_COUNT_JUDGED: Model = Model {
    rows_fit: |model, state| {
        let mut past = state.tasks[state.task_count..].iter();
        let judged = past.all(|task| *task == Task::default() || model.task_fits(task));
        judged && RIGHT.rows_fit(state)
    },
    ..RIGHT
};

const FIVE_TO_SEVEN_ASKED: Model = Model {
    rows_fit: |model, state| {
        if !RIGHT.rows_fit(state) {
            return false;
        }
        let tables = Tables {
            tasks: state.tasks[..state.task_count].to_vec(),
            connections: state.rows().to_vec(),
        };
        let refused = model
            .refusal_5(&tables)
            .or_else(|| model.refusal_6(&tables))
            .or_else(|| model.refusal_7(&tables));
        refused.is_none()
    },
    ..RIGHT
};

const FRESH_ALL_IDLE: Model = Model {
    cycles_fit: |_, state| {
        let mut phases = state.phases[..state.task_count].iter();
        RIGHT.cycles_fit(state) && (state.ticked || phases.all(|phase| *phase == Phase::Idle))
    },
    ..RIGHT
};

/// As it is in every state a run reaches.
const RUNNING_STARTED: Model = Model {
    order_fits: |_, state| {
        let started = |task: usize| state.phases[task] == Phase::Started;
        RIGHT.order_fits(state) && RIGHT.running_task(state).map_or(true, started)
    },
    ..RIGHT
};
