//! The model behind the interface of lent words: what the C library answers and leaves behind.

use super::answer::{Answer, Call};
use super::rules::Model;
use super::state::State;
use super::state_words::{plan_words, state_of, state_words, PLAN_WORDS, STATE_WORDS};

/// Too few words lent for the plan is asked first; then nothing is written.
pub fn lent_plan(model: &Model, tasks: &[u16], connections: &[u16], plan: &mut [u32]) -> u64 {
    if plan.len() < PLAN_WORDS {
        return Answer::refused(9, 0).word();
    }
    let (answer, worked_out) = model.plan(tasks, connections);
    model.lay_down(plan, &plan_words(&worked_out));
    answer.word()
}

/// Too few words lent for the state is asked first; then nothing is written.
pub fn lent_fresh(model: &Model, tasks: &[u16], connections: &[u16], state: &mut [u32]) -> u64 {
    if state.len() < STATE_WORDS {
        return Answer::refused(9, 0).word();
    }
    let (answer, fresh) = model.fresh_start(tasks, connections);
    model.lay_down(state, &state_words(&fresh));
    answer.word()
}

pub fn lent_call(model: &Model, words: &mut [u32], call: Call) -> u64 {
    let Some(given) = model.given_state(words) else {
        return Answer::refused(16, 0).word();
    };
    let (answer, after) = model.call(&given, call);
    model.lay_down(words, &state_words(&after));
    answer.word()
}

/// None where too few words are lent or they encode no state.
pub fn given_state(_: &Model, words: &[u32]) -> Option<State> {
    state_of(words.get(..STATE_WORDS)?)
}

/// Words lent past what is laid down are left alone.
pub fn lay_down(_: &Model, lent: &mut [u32], words: &[u32]) {
    lent[..words.len()].copy_from_slice(words);
}
