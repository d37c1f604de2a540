//! Calls in the course of a run.

use super::chance::Chance;
use crate::model::answer::Answer;
use crate::model::rules::Model;
use crate::model::state::State;

/// How long a run lets its jobs take. What a call should be depends on the state it meets, so a
/// habit decides call by call.
#[derive(Clone, Copy, Debug)]
pub enum Habit {
    /// Completes everything before the next tick.
    Prompt,
    /// Completes a job only where the next tick would miss a deadline.
    Late,
    /// Completes now and then, and where the next tick would miss a deadline.
    Uneven(u32),
    /// Completes now and then; deadlines may be missed.
    Careless(u32),
}

impl Habit {
    pub fn any(chance: &mut Chance) -> Habit {
        match chance.below(6) {
            0 => Habit::Careless(chance.between(1, 7)),
            _ => Habit::keeping_deadlines(chance),
        }
    }

    pub fn keeping_deadlines(chance: &mut Chance) -> Habit {
        match chance.below(5) {
            0 => Habit::Prompt,
            1 | 2 => Habit::Late,
            _ => Habit::Uneven(chance.between(1, 7)),
        }
    }

    /// Whether the next call is a completion, else it is a tick. A completion while no task runs
    /// is asked for now and then, to be refused.
    pub fn completes(self, chance: &mut Chance, model: &Model, state: &State) -> bool {
        if model.running_task(state).is_none() {
            return chance.one_in(24);
        }
        let would_miss = || matches!(model.tick(state).0, Answer::Missed(_));
        match self {
            Habit::Prompt => true,
            Habit::Late => would_miss(),
            Habit::Uneven(eighths) => chance.below(8) < eighths || would_miss(),
            Habit::Careless(eighths) => chance.below(8) < eighths,
        }
    }
}
