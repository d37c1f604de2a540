//! Mistakes about what a tick copies, dispatches and chooses.

use super::Mistake;
use crate::model::answer::Answer;
use crate::model::rules::{Model, RIGHT};
use crate::model::state::Phase;
use crate::model::tables::{Connection, DELAYED, UNDELAYED};

pub fn mistakes() -> Vec<Mistake> {
    vec![
        Mistake::new("slip: dispatch before the deadline copies", DISPATCH_FIRST)
            .breaking_sampling(),
        Mistake::new("slip: inputs copied again at resuming", COPIED_AT_RESUMING)
            .breaking_sampling(),
        Mistake::new(
            "undelayed inputs copied again at resuming",
            UNDELAYED_AT_RESUMING,
        ),
        Mistake::new("undelayed inputs copied at dispatch", UNDELAYED_AT_DISPATCH)
            .breaking_sampling(),
        Mistake::new("delayed inputs copied at the start", DELAYED_AT_START).breaking_sampling(),
        Mistake::new(
            "delayed words copied at dispatch of the sender",
            DELIVERED_AT_DISPATCH,
        )
        .breaking_sampling(),
        Mistake::new(
            "undelayed words copied at the deadline too",
            BOTH_AT_DEADLINE,
        ),
        Mistake::new("dispatch clears the output", OUTPUT_CLEARED),
        Mistake::new("dispatch records the next cycle", NEXT_CYCLE_RECORDED),
        Mistake::new("dispatch records no cycle", NO_CYCLE_RECORDED).breaking_sampling(),
        Mistake::new("dispatch leaves a started task started", STARTED_STAYS),
        Mistake::new(
            "shut out: copies are made at the first tick alone",
            COPIES_AT_FIRST_TICK,
        )
        .breaking_sampling(),
        Mistake::new("a started task is not preempted", NOT_PREEMPTED).breaking_sampling(),
        Mistake::new("a chosen task stays waiting", STAYS_WAITING),
        Mistake::new("the last in the order runs", LAST_RUNS).breaking_sampling(),
        Mistake::new("only the first row of a receiver is copied", FIRST_ROW_ONLY)
            .breaking_sampling(),
    ]
}

const DISPATCH_FIRST: Model = Model {
    deliver_and_dispatch: |model, state| {
        model.dispatch_all(state);
        model.deliver_at_deadlines(state);
    },
    ..RIGHT
};

const COPIED_AT_RESUMING: Model = Model {
    choose: |model, state| {
        let answer = RIGHT.choose(state);
        if let Answer::Running(task) = answer {
            model.take_inputs(state, task, DELAYED);
            model.take_inputs(state, task, UNDELAYED);
        }
        answer
    },
    ..RIGHT
};

const UNDELAYED_AT_RESUMING: Model = Model {
    choose: |model, state| {
        let answer = RIGHT.choose(state);
        if let Answer::Running(task) = answer {
            model.take_inputs(state, task, UNDELAYED);
        }
        answer
    },
    ..RIGHT
};

const UNDELAYED_AT_DISPATCH: Model = Model {
    dispatch: |model, state, task| {
        RIGHT.dispatch(state, task);
        model.take_inputs(state, task, UNDELAYED);
    },
    start: |_, state, task| {
        state.phases[task] = Phase::Started;
    },
    ..RIGHT
};

const DELAYED_AT_START: Model = Model {
    dispatch: |_, state, task| {
        state.phases[task] = Phase::Waiting;
        state.dispatched[task] = state.cycle;
    },
    start: |model, state, task| {
        RIGHT.start(state, task);
        model.take_inputs(state, task, DELAYED);
    },
    ..RIGHT
};

const DELIVERED_AT_DISPATCH: Model = Model {
    deliver_at_deadlines: |_, state| {
        for row in 0..state.connection_count {
            let Connection { sender, kind, .. } = state.connections[row];
            if kind == DELAYED && state.cycle % state.tasks[sender].period == 0 {
                state.buffers[row] = state.outputs[sender];
            }
        }
    },
    ..RIGHT
};

const BOTH_AT_DEADLINE: Model = Model {
    deliver_at_deadlines: |model, state| {
        for row in 0..state.connection_count {
            let sender = state.connections[row].sender;
            if model.deadline_falls(state, sender) {
                state.buffers[row] = state.outputs[sender];
            }
        }
    },
    ..RIGHT
};

const OUTPUT_CLEARED: Model = Model {
    dispatch: |_, state, task| {
        RIGHT.dispatch(state, task);
        state.outputs[task] = 0;
    },
    ..RIGHT
};

const NEXT_CYCLE_RECORDED: Model = Model {
    dispatch: |model, state, task| {
        RIGHT.dispatch(state, task);
        state.dispatched[task] = model.next_cycle(state);
    },
    ..RIGHT
};

const NO_CYCLE_RECORDED: Model = Model {
    dispatch: |model, state, task| {
        model.take_inputs(state, task, DELAYED);
        state.phases[task] = Phase::Waiting;
    },
    ..RIGHT
};

const STARTED_STAYS: Model = Model {
    dispatch: |_, state, task| {
        let before = state.phases[task];
        RIGHT.dispatch(state, task);
        if before == Phase::Started {
            state.phases[task] = before;
        }
    },
    ..RIGHT
};

/// Only names tasks after the first tick.
const COPIES_AT_FIRST_TICK: Model = Model {
    take_inputs: |_, state, task, kind| {
        if !state.ticked {
            RIGHT.take_inputs(state, task, kind);
        }
    },
    ..RIGHT
};

const NOT_PREEMPTED: Model = Model {
    running_task: |_, state| {
        let mut order = state.order[..state.task_count].iter().copied();
        let started = order.find(|task| state.phases[*task] == Phase::Started);
        started.or_else(|| RIGHT.running_task(state))
    },
    ..RIGHT
};

const STAYS_WAITING: Model = Model {
    start: |model, state, task| {
        model.take_inputs(state, task, UNDELAYED);
    },
    ..RIGHT
};

const LAST_RUNS: Model = Model {
    running_task: |_, state| {
        let mut order = state.order[..state.task_count].iter().rev().copied();
        order.find(|task| state.phases[*task] != Phase::Idle)
    },
    ..RIGHT
};

const FIRST_ROW_ONLY: Model = Model {
    take_inputs: |_, state, task, kind| {
        let mut rows = state.rows().iter();
        let first = rows.position(|row| row.receiver == task && row.kind == kind);
        if let Some(row) = first {
            state.inputs[row] = state.buffers[row];
        }
    },
    ..RIGHT
};
