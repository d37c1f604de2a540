//! Mistakes about refusals 14 to 16 and about fresh states.

use super::Mistake;
use crate::model::answer::{Answer, Refusal};
use crate::model::rules::{Model, RIGHT};
use crate::model::state::{Phase, State};

pub fn mistakes() -> Vec<Mistake> {
    vec![
        Mistake::new("15 before 16", HALTED_FIRST),
        Mistake::new("14 before 15", IDLE_FIRST),
        Mistake::new("14 before 16", IDLE_BEFORE_RANGE),
        Mistake::new("a tick is refused while no task runs", IDLE_TICK_REFUSED),
        Mistake::new("a halted state takes completions", HALTED_COMPLETES),
        Mistake::new("a halted state takes ticks", HALTED_TICKS),
        Mistake::new(
            "a refused tick advances the cycle of a halted state",
            HALTED_ADVANCES,
        ),
        Mistake::new("a refused completion sets the tick mark", REFUSED_SETS_MARK),
        Mistake::new("a refused completion halts", REFUSED_HALTS),
        Mistake::new(
            "a fresh start leaves rubbish past the counts",
            RUBBISH_PAST_COUNTS,
        ),
        Mistake::new("a fresh start is ticked already", FRESH_TICKED),
        Mistake::new("a fresh start is all waiting", FRESH_WAITING),
        Mistake::new("a fresh start orders by table position", FRESH_BY_POSITION)
            .breaking_sampling(),
        Mistake::new("a refused fresh start is not halted", REFUSED_NOT_HALTED),
        Mistake::new("a refused fresh start is ticked", REFUSED_TICKED),
        Mistake::new("shut out: idle is answered always", IDLE_ALWAYS),
        Mistake::new("shut out: missed is answered always", MISSED_ALWAYS),
        Mistake::new("shut out: the state never changes", NEVER_CHANGES).breaking_sampling(),
    ]
}

const HALTED_FIRST: Model = Model {
    tick_refusal: |model, state| model.refusal_15(state).or_else(|| model.refusal_16(state)),
    completion_refusal: |model, state| {
        model
            .refusal_15(state)
            .or_else(|| RIGHT.completion_refusal(state))
    },
    ..RIGHT
};

const IDLE_FIRST: Model = Model {
    completion_refusal: |model, state| {
        model
            .refusal_16(state)
            .or_else(|| model.refusal_14(state))
            .or_else(|| model.refusal_15(state))
    },
    ..RIGHT
};

const IDLE_BEFORE_RANGE: Model = Model {
    completion_refusal: |_, state| {
        let idle = state.phases.iter().all(|phase| *phase == Phase::Idle);
        match idle && !state.halted {
            true => Some(Refusal::new(14, 0)),
            false => RIGHT.completion_refusal(state),
        }
    },
    ..RIGHT
};

const IDLE_TICK_REFUSED: Model = Model {
    tick_refusal: |model, state| model.completion_refusal(state),
    ..RIGHT
};

const HALTED_COMPLETES: Model = Model {
    completion_refusal: |model, state| model.refusal_16(state).or_else(|| model.refusal_14(state)),
    ..RIGHT
};

const HALTED_TICKS: Model = Model {
    tick_refusal: |model, state| model.refusal_16(state),
    ..RIGHT
};

const HALTED_ADVANCES: Model = Model {
    tick: |model, given| {
        let (answer, mut after) = RIGHT.tick(given);
        if answer == Answer::refused(15, 0) {
            after.cycle = model.next_cycle(given);
        }
        (answer, after)
    },
    ..RIGHT
};

const REFUSED_SETS_MARK: Model = Model {
    complete: |_, given, word| {
        let (answer, mut after) = RIGHT.complete(given, word);
        if let Answer::Refused(_) = answer {
            after.ticked = true;
        }
        (answer, after)
    },
    ..RIGHT
};

const REFUSED_HALTS: Model = Model {
    complete: |_, given, word| {
        let (answer, mut after) = RIGHT.complete(given, word);
        if answer == Answer::refused(14, 0) {
            after.halted = true;
        }
        (answer, after)
    },
    ..RIGHT
};

const RUBBISH_PAST_COUNTS: Model = Model {
    fresh_state: |_, tables, plan| {
        let mut state = RIGHT.fresh_state(tables, plan);
        for place in state.task_count..state.order.len() {
            state.order[place] = place;
        }
        state
    },
    ..RIGHT
};

const FRESH_TICKED: Model = Model {
    fresh_state: |_, tables, plan| State {
        ticked: true,
        ..RIGHT.fresh_state(tables, plan)
    },
    ..RIGHT
};

const FRESH_WAITING: Model = Model {
    fresh_state: |_, tables, plan| {
        let mut state = RIGHT.fresh_state(tables, plan);
        let tasks = state.task_count;
        state.phases[..tasks].fill(Phase::Waiting);
        state
    },
    ..RIGHT
};

const FRESH_BY_POSITION: Model = Model {
    fresh_state: |_, tables, plan| {
        let mut state = RIGHT.fresh_state(tables, plan);
        let tasks = state.task_count;
        state.order[..tasks].sort();
        state
    },
    ..RIGHT
};

const REFUSED_NOT_HALTED: Model = Model {
    refused_start: |_| State::zeros(),
    ..RIGHT
};

const REFUSED_TICKED: Model = Model {
    refused_start: |_| State {
        ticked: true,
        ..RIGHT.refused_start()
    },
    ..RIGHT
};

const IDLE_ALWAYS: Model = Model {
    call: |_, given, _| (Answer::Idle, given.clone()),
    ..RIGHT
};

const MISSED_ALWAYS: Model = Model {
    call: |_, given, _| (Answer::Missed(0), RIGHT.halt(given)),
    ..RIGHT
};

const NEVER_CHANGES: Model = Model {
    call: |_, given, call| (RIGHT.call(given, call).0, given.clone()),
    ..RIGHT
};
