//! Mistakes about completion.

use super::Mistake;
use crate::model::answer::Answer;
use crate::model::rules::{Model, RIGHT};
use crate::model::state::{Phase, State};
use crate::model::tables::{Connection, DELAYED};

pub fn mistakes() -> Vec<Mistake> {
    vec![
        Mistake::new(
            "slip: a delayed word copied at completion",
            DELAYED_AT_COMPLETION,
        )
        .breaking_sampling(),
        Mistake::new(
            "slip: an undelayed word copied at every completion",
            AT_EVERY_COMPLETION,
        )
        .breaking_sampling(),
        Mistake::new(
            "equal periods decide in place of equal cycles",
            EQUAL_PERIODS,
        )
        .breaking_sampling(),
        Mistake::new(
            "the recorded cycle is ignored for equal periods",
            CYCLE_IGNORED,
        ),
        Mistake::new("the receiver must not be started", STARTED_RECEIVES_NOTHING),
        Mistake::new(
            "an undelayed row to itself receives nothing",
            NOTHING_TO_ITSELF,
        ),
        Mistake::new("a completed task does not become idle", NEVER_IDLE).breaking_sampling(),
        Mistake::new(
            "a waiting task completes without becoming idle",
            WAITING_STAYS,
        ),
        Mistake::new("a waiting task starts before it completes", STARTED_FIRST),
        Mistake::new("completion leaves the output", OUTPUT_LEFT).breaking_sampling(),
        Mistake::new("completion does not start the next task", NEXT_NOT_STARTED)
            .breaking_sampling(),
        Mistake::new("completion goes to the inputs", TO_THE_INPUTS),
    ]
}

const DELAYED_AT_COMPLETION: Model = Model {
    deliver_at_deadlines: |_, _state| {},
    receives_at_completion: |_, state, row| {
        row.kind == DELAYED || RIGHT.receives_at_completion(state, row)
    },
    ..RIGHT
};

const AT_EVERY_COMPLETION: Model = Model {
    receives_at_completion: |_, _state, row| row.is_undelayed(),
    ..RIGHT
};

fn periods_equal(state: &State, row: &Connection) -> bool {
    state.tasks[row.sender].period == state.tasks[row.receiver].period
}

const EQUAL_PERIODS: Model = Model {
    receives_at_completion: |_, state, row| row.is_undelayed() && periods_equal(state, row),
    ..RIGHT
};

const CYCLE_IGNORED: Model = Model {
    receives_at_completion: |_, state, row| {
        let alike = row.is_undelayed() && periods_equal(state, row);
        alike || RIGHT.receives_at_completion(state, row)
    },
    ..RIGHT
};

const STARTED_RECEIVES_NOTHING: Model = Model {
    receives_at_completion: |_, state, row| {
        let started = state.phases[row.receiver] == Phase::Started;
        !started && RIGHT.receives_at_completion(state, row)
    },
    ..RIGHT
};

const NOTHING_TO_ITSELF: Model = Model {
    receives_at_completion: |_, state, row| {
        row.sender != row.receiver && RIGHT.receives_at_completion(state, row)
    },
    ..RIGHT
};

const NEVER_IDLE: Model = Model {
    finish: |_, state, task, word| {
        let before = state.phases[task];
        RIGHT.finish(state, task, word);
        state.phases[task] = before;
    },
    ..RIGHT
};

const WAITING_STAYS: Model = Model {
    finish: |_, state, task, word| {
        let waits = state.phases[task] == Phase::Waiting;
        RIGHT.finish(state, task, word);
        if waits {
            state.phases[task] = Phase::Waiting;
        }
    },
    ..RIGHT
};

const STARTED_FIRST: Model = Model {
    finish: |model, state, task, word| {
        if state.phases[task] == Phase::Waiting {
            model.start(state, task);
        }
        RIGHT.finish(state, task, word);
    },
    ..RIGHT
};

const OUTPUT_LEFT: Model = Model {
    finish: |_, state, task, word| {
        let before = state.outputs[task];
        RIGHT.finish(state, task, word);
        state.outputs[task] = before;
    },
    ..RIGHT
};

const NEXT_NOT_STARTED: Model = Model {
    complete: |_, given, word| {
        let (answer, mut state) = RIGHT.complete(given, word);
        if let Answer::Running(task) = answer {
            state.phases[task] = given.phases[task];
            state.inputs = given.inputs;
        }
        (answer, state)
    },
    ..RIGHT
};

const TO_THE_INPUTS: Model = Model {
    finish: |model, state, task, word| {
        RIGHT.finish(state, task, word);
        for row in 0..state.connection_count {
            let connection = state.connections[row];
            if connection.sender == task && model.receives_at_completion(state, &connection) {
                state.inputs[row] = word;
            }
        }
    },
    ..RIGHT
};
