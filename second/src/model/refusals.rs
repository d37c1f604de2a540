//! Refusals 1 to 8: what the planner and fresh start turn away.

use super::answer::Refusal;
use super::rules::Model;
use super::tables::{
    Connection, Tables, Task, CONNECTION_WORDS, GREATEST_CRITICALITY, GREATEST_MULTIPLE,
    LONGEST_PERIOD, MOST_CONNECTIONS, MOST_TASKS, TASK_WORDS,
};

/// The lowest refusal number that applies. Each number is judged over the whole table before
/// the next one.
pub fn table_refusal(
    model: &Model,
    task_words: &[u16],
    connection_words: &[u16],
) -> Option<Refusal> {
    let tables = Tables::from_words(task_words, connection_words);
    model
        .refusal_1(task_words)
        .or_else(|| model.refusal_2(connection_words))
        .or_else(|| model.refusal_3(&tables))
        .or_else(|| model.refusal_4(&tables))
        .or_else(|| model.refusal_5(&tables))
        .or_else(|| model.refusal_6(&tables))
        .or_else(|| model.refusal_7(&tables))
        .or_else(|| model.refusal_8(&tables))
}

pub fn refusal_1(_: &Model, task_words: &[u16]) -> Option<Refusal> {
    let words = task_words.len();
    let refused = words % TASK_WORDS != 0 || words == 0 || words > MOST_TASKS * TASK_WORDS;
    refused.then_some(Refusal::new(1, 0))
}

pub fn refusal_2(_: &Model, connection_words: &[u16]) -> Option<Refusal> {
    let words = connection_words.len();
    let refused = words % CONNECTION_WORDS != 0 || words > MOST_CONNECTIONS * CONNECTION_WORDS;
    refused.then_some(Refusal::new(2, 0))
}

pub fn refusal_3(model: &Model, tables: &Tables) -> Option<Refusal> {
    let first = tables.tasks.iter().position(|task| !model.task_fits(task));
    first.map(|task| Refusal::new(3, task))
}

pub fn refusal_4(model: &Model, tables: &Tables) -> Option<Refusal> {
    let tasks = tables.tasks.len();
    let mut rows = tables.connections.iter();
    let first = rows.position(|row| !model.connection_fits(row, tasks));
    first.map(|row| Refusal::new(4, row))
}

pub fn refusal_5(model: &Model, tables: &Tables) -> Option<Refusal> {
    let mut rows = tables.connections.iter();
    let first = rows.position(|row| model.refuses_5(tables, row));
    first.map(|row| Refusal::new(5, row))
}

/// The lowest task of any circle of undelayed connections.
pub fn refusal_6(model: &Model, tables: &Tables) -> Option<Refusal> {
    let mut tasks = 0..tables.tasks.len();
    let lowest = tasks.find(|task| model.reached(tables, *task).contains(task));
    lowest.map(|task| Refusal::new(6, task))
}

pub fn refusal_7(model: &Model, tables: &Tables) -> Option<Refusal> {
    let mut rows = tables.connections.iter();
    let first = rows.position(|row| model.refuses_7(tables, row));
    first.map(|row| Refusal::new(7, row))
}

pub fn refusal_8(model: &Model, tables: &Tables) -> Option<Refusal> {
    let over = model.common_multiple(tables).is_none();
    over.then_some(Refusal::new(8, 0))
}

/// Every value of a task row within its size.
pub fn task_fits(_: &Model, task: &Task) -> bool {
    (1..=LONGEST_PERIOD).contains(&task.period)
        && (1..=task.period).contains(&task.deadline)
        && (1..=task.deadline).contains(&task.compute)
        && task.criticality <= GREATEST_CRITICALITY
        && task.flag <= 1
}

pub fn connection_fits(_: &Model, row: &Connection, tasks: usize) -> bool {
    row.sender < tasks && row.receiver < tasks && row.kind <= 1
}

pub fn refuses_5(_: &Model, tables: &Tables, row: &Connection) -> bool {
    let sender = tables.tasks[row.sender].period;
    let receiver = tables.tasks[row.receiver].period;
    let neither_divides = sender % receiver != 0 && receiver % sender != 0;
    row.is_undelayed() && neither_divides
}

/// Criticality 0 is the most critical; the table's own criticalities count here.
pub fn refuses_7(_: &Model, tables: &Tables, row: &Connection) -> bool {
    let sender = tables.tasks[row.sender];
    let receiver = tables.tasks[row.receiver];
    row.is_undelayed() && sender.criticality > receiver.criticality && sender.flag == 0
}

/// The tasks reached from a task by a chain of one or more undelayed connections.
pub fn reached(_: &Model, tables: &Tables, from: usize) -> Vec<usize> {
    let mut reached = Vec::new();
    let mut to_visit = tables.undelayed_receivers(from);
    while let Some(task) = to_visit.pop() {
        if !reached.contains(&task) {
            reached.push(task);
            to_visit.extend(tables.undelayed_receivers(task));
        }
    }
    reached
}

/// The common multiple of all periods, or none where it is over 720,720. It never shrinks
/// from one task to the next, so the first excess decides.
pub fn common_multiple(_: &Model, tables: &Tables) -> Option<u32> {
    let mut multiple: u64 = 1;
    for task in &tables.tasks {
        let period = u64::from(task.period);
        multiple = multiple / greatest_common_divisor(multiple, period) * period;
        if multiple > u64::from(GREATEST_MULTIPLE) {
            return None;
        }
    }
    Some(multiple as u32)
}

pub fn greatest_common_divisor(one: u64, other: u64) -> u64 {
    if other == 0 {
        return one;
    }
    greatest_common_divisor(other, one % other)
}
