//! Working out the order.

use super::answer::Answer;
use super::rules::Model;
use super::tables::{Tables, MOST_TASKS};

/// Internal deadlines are in sixty-fourths of a tick.
pub const SIXTY_FOURTHS: u32 = 64;

#[derive(Clone, Debug, PartialEq, Eq)]
pub struct Plan {
    pub multiple: u32,
    /// Task numbers, highest priority first.
    pub order: [u32; MOST_TASKS],
    /// By task number.
    pub deadlines: [u32; MOST_TASKS],
    /// By task number.
    pub criticalities: [u32; MOST_TASKS],
}

impl Plan {
    pub fn zeros() -> Plan {
        Plan {
            multiple: 0,
            order: [0; MOST_TASKS],
            deadlines: [0; MOST_TASKS],
            criticalities: [0; MOST_TASKS],
        }
    }
}

/// What is known of the longest chain between two tasks: nothing yet, or its length if any.
type Known = Option<Option<u32>>;

/// The longest chain between each two tasks, kept once known.
#[derive(Default)]
pub struct Chains {
    known: [[Known; MOST_TASKS]; MOST_TASKS],
}

pub fn plan(model: &Model, task_words: &[u16], connection_words: &[u16]) -> (Answer, Plan) {
    match model.table_refusal(task_words, connection_words) {
        Some(refusal) => (Answer::Refused(refusal), model.refused_plan()),
        None => {
            let tables = Tables::from_words(task_words, connection_words);
            (Answer::Accepted, model.work_out(&tables))
        }
    }
}

pub fn refused_plan(_: &Model) -> Plan {
    Plan::zeros()
}

/// The plan of tables that none of refusals 1 to 8 turns away.
pub fn work_out(model: &Model, tables: &Tables) -> Plan {
    let mut plan = Plan::zeros();
    plan.multiple = model.common_multiple(tables).unwrap_or(0);
    let mut chains = Chains::default();
    for task in 0..tables.tasks.len() {
        plan.deadlines[task] = model.internal_deadline(tables, task, &mut chains);
        plan.criticalities[task] = model.internal_criticality(tables, task);
    }
    let mut order: Vec<usize> = (0..tables.tasks.len()).collect();
    order.sort_by_key(|task| model.order_key(&plan, *task));
    for (place, task) in order.into_iter().enumerate() {
        plan.order[place] = task as u32;
    }
    plan
}

/// Smallest first: internal deadline, internal criticality, table position.
pub fn order_key(_: &Model, plan: &Plan, task: usize) -> (u32, u32, usize) {
    (plan.deadlines[task], plan.criticalities[task], task)
}

pub fn internal_deadline(model: &Model, tables: &Tables, task: usize, chains: &mut Chains) -> u32 {
    let own = tables.tasks[task].deadline * SIXTY_FOURTHS;
    let mut least = own;
    for reached in 0..tables.tasks.len() {
        if let Some(length) = model.longest_chain(tables, task, reached, chains) {
            least = least.min(tables.tasks[reached].deadline * SIXTY_FOURTHS - length);
        }
    }
    least
}

pub fn internal_criticality(model: &Model, tables: &Tables, task: usize) -> u32 {
    let mut least = tables.tasks[task].criticality;
    for reached in model.reached(tables, task) {
        least = least.min(tables.tasks[reached].criticality);
    }
    least
}

/// The number of connections in the longest undelayed chain from one task to another. Every
/// first link is tried; no chain returns to its start (refusal 6), so the search ends.
pub fn longest_chain(
    model: &Model,
    tables: &Tables,
    from: usize,
    to: usize,
    chains: &mut Chains,
) -> Option<u32> {
    if let Some(known) = chains.known[from][to] {
        return known;
    }
    let mut longest: Option<u32> = None;
    for receiver in tables.undelayed_receivers(from) {
        if receiver == to {
            longest = longest.max(Some(1));
        }
        if let Some(rest) = model.longest_chain(tables, receiver, to, chains) {
            longest = longest.max(Some(1 + rest));
        }
    }
    chains.known[from][to] = Some(longest);
    longest
}
