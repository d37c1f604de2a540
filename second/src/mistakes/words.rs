//! Mistakes about the words lent.

use super::Mistake;
use crate::model::answer::Answer;
use crate::model::rules::{Model, RIGHT};
use crate::model::state_words::{limits, start_of, state_of, STATE_WORDS};

pub fn mistakes() -> Vec<Mistake> {
    vec![
        Mistake::new("words: what is lent past the end is cleared", TAIL_CLEARED),
        Mistake::new("words: a phase over 2 is taken for started", PHASE_OVER),
        Mistake::new(
            "words: values too wide lose their upper bits",
            UPPER_BITS_LOST,
        ),
        Mistake::new(
            "words: past the counts no word is too wide",
            PAST_COUNTS_UNREAD,
        ),
        Mistake::new(
            "words: 9 is asked of the plan after 1 to 8",
            NINE_AFTER_TABLES,
        ),
        Mistake::new("words: more than 614 words are refused", MORE_REFUSED),
        Mistake::new("words: a state too short is refused 9", SHORT_STATE_NINE),
        Mistake::new("words: a refused plan writes nothing", REFUSED_PLAN_LEFT),
        Mistake::new(
            "words: a refused fresh start writes nothing",
            REFUSED_START_LEFT,
        ),
    ]
}

const TAIL_CLEARED: Model = Model {
    lay_down: |_, lent, words| {
        lent.fill(0);
        RIGHT.lay_down(lent, words);
    },
    ..RIGHT
};

const PHASE_OVER: Model = Model {
    given_state: |_, words| {
        let mut words = words.get(..STATE_WORDS)?.to_vec();
        let first = start_of("phase");
        for phase in &mut words[first..first + 32] {
            *phase = (*phase).min(2);
        }
        state_of(&words)
    },
    ..RIGHT
};

const UPPER_BITS_LOST: Model = Model {
    given_state: |_, words| {
        let mut words = words.get(..STATE_WORDS)?.to_vec();
        for (word, limit) in words.iter_mut().zip(limits()) {
            if limit == 255 || limit == 65_535 {
                *word &= limit;
            }
        }
        state_of(&words)
    },
    ..RIGHT
};

/// Words of task rows past the count are cut down to what fits.
const PAST_COUNTS_UNREAD: Model = Model {
    given_state: |_, words| {
        let mut words = words.get(..STATE_WORDS)?.to_vec();
        let tasks = words[0].min(32) as usize;
        let past_count = start_of("task") + 5 * tasks..start_of("connection");
        let limits = limits();
        for index in past_count {
            words[index] = words[index].min(limits[index]);
        }
        state_of(&words)
    },
    ..RIGHT
};

const NINE_AFTER_TABLES: Model = Model {
    lent_plan: |model, tasks, connections, plan| {
        let (answer, _) = model.plan(tasks, connections);
        match answer {
            Answer::Refused(_) if plan.len() < 97 => answer.word(),
            _ => RIGHT.lent_plan(tasks, connections, plan),
        }
    },
    ..RIGHT
};

const MORE_REFUSED: Model = Model {
    given_state: |_, words| state_of(words),
    ..RIGHT
};

const SHORT_STATE_NINE: Model = Model {
    lent_call: |_, words, call| {
        if words.len() < STATE_WORDS {
            return Answer::refused(9, 0).word();
        }
        RIGHT.lent_call(words, call)
    },
    ..RIGHT
};

const REFUSED_PLAN_LEFT: Model = Model {
    lent_plan: |_, tasks, connections, plan| {
        let before = plan.to_vec();
        let answer = RIGHT.lent_plan(tasks, connections, plan);
        if answer != Answer::Accepted.word() {
            plan.copy_from_slice(&before);
        }
        answer
    },
    ..RIGHT
};

const REFUSED_START_LEFT: Model = Model {
    lent_fresh: |_, tasks, connections, state| {
        let before = state.to_vec();
        let answer = RIGHT.lent_fresh(tasks, connections, state);
        if answer != Answer::Idle.word() {
            state.copy_from_slice(&before);
        }
        answer
    },
    ..RIGHT
};
