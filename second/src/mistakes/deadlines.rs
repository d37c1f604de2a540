//! Mistakes about deadlines and the cycle.

use super::Mistake;
use crate::model::rules::{Model, RIGHT};
use crate::model::state::{Phase, State};

pub fn mistakes() -> Vec<Mistake> {
    vec![
        Mistake::new("slip: deadlines fall at the first tick", AT_FIRST_TICK),
        Mistake::new("slip: deadlines fall at no cycle 0", AT_NO_CYCLE_ZERO).breaking_sampling(),
        Mistake::new("the first tick is told by cycle 0", FIRST_TICK_BY_CYCLE),
        Mistake::new("a deadline equal to the period never falls", NO_REMAINDER)
            .breaking_sampling(),
        Mistake::new("a deadline falls one tick late", ONE_TICK_LATE).breaking_sampling(),
        Mistake::new("missed names the highest task", HIGHEST_MISSED),
        Mistake::new("missed names the highest priority", FIRST_IN_ORDER_MISSED),
        Mistake::new("missed asks waiting tasks only", WAITING_MISSED),
        Mistake::new("missed does not halt", NOT_HALTED),
        Mistake::new("missed advances the cycle", MISS_ADVANCES),
        Mistake::new("missed makes the task idle", MISS_ENDS_THE_JOB),
        Mistake::new("the cycle is not wrapped", NOT_WRAPPED).breaking_sampling(),
        Mistake::new("the cycle wraps one tick early", WRAPPED_EARLY).breaking_sampling(),
        Mistake::new("the tick mark is never set", MARK_NEVER_SET).breaking_sampling(),
    ]
}

fn remainders_agree(state: &State, task: usize) -> bool {
    let row = state.tasks[task];
    state.cycle % row.period == row.deadline % row.period
}

const AT_FIRST_TICK: Model = Model {
    deadline_falls: |_, state, task| remainders_agree(state, task),
    ..RIGHT
};

const AT_NO_CYCLE_ZERO: Model = Model {
    deadline_falls: |_, state, task| state.cycle != 0 && RIGHT.deadline_falls(state, task),
    ..RIGHT
};

const FIRST_TICK_BY_CYCLE: Model = Model {
    deadline_falls: |_, state, task| {
        (state.ticked || state.cycle != 0) && remainders_agree(state, task)
    },
    ..RIGHT
};

const NO_REMAINDER: Model = Model {
    deadline_falls: |_, state, task| {
        let row = state.tasks[task];
        state.ticked && state.cycle % row.period == row.deadline
    },
    ..RIGHT
};

const ONE_TICK_LATE: Model = Model {
    deadline_falls: |_, state, task| {
        let row = state.tasks[task];
        state.ticked && state.cycle % row.period == (row.deadline + 1) % row.period
    },
    ..RIGHT
};

const HIGHEST_MISSED: Model = Model {
    missed: |model, state| {
        let late =
            |task: &usize| model.deadline_falls(state, *task) && state.phases[*task] != Phase::Idle;
        (0..state.task_count).rev().find(late)
    },
    ..RIGHT
};

const FIRST_IN_ORDER_MISSED: Model = Model {
    missed: |model, state| {
        let order = state.order[..state.task_count].iter().copied();
        let mut not_idle = order.filter(|task| state.phases[*task] != Phase::Idle);
        not_idle.find(|task| model.deadline_falls(state, *task))
    },
    ..RIGHT
};

const WAITING_MISSED: Model = Model {
    missed: |model, state| {
        (0..state.task_count).find(|task| {
            model.deadline_falls(state, *task) && state.phases[*task] == Phase::Waiting
        })
    },
    ..RIGHT
};

const NOT_HALTED: Model = Model {
    halt: |_, given| given.clone(),
    ..RIGHT
};

const MISS_ADVANCES: Model = Model {
    halt: |model, given| State {
        cycle: model.next_cycle(given),
        ..RIGHT.halt(given)
    },
    ..RIGHT
};

const MISS_ENDS_THE_JOB: Model = Model {
    halt: |model, given| {
        let mut state = RIGHT.halt(given);
        if let Some(task) = model.missed(given) {
            state.phases[task] = Phase::Idle;
        }
        state
    },
    ..RIGHT
};

const NOT_WRAPPED: Model = Model {
    next_cycle: |_, given| given.cycle + 1,
    ..RIGHT
};

const WRAPPED_EARLY: Model = Model {
    next_cycle: |_, given| (given.cycle + 1) % (given.multiple - 1).max(1),
    ..RIGHT
};

const MARK_NEVER_SET: Model = Model {
    tick: |_, given| {
        let (answer, after) = RIGHT.tick(given);
        let ticked = given.ticked;
        (answer, State { ticked, ..after })
    },
    ..RIGHT
};
