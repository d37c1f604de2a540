//! Tables spoiled so that one of refusals 1 to 8 should apply.

use super::chance::Chance;
use super::shapes::{task, undelayed};
use crate::model::refusals::greatest_common_divisor;
use crate::model::tables::{Connection, TableWords, Tables, Task, GREATEST_MULTIPLE, MOST_TASKS};

/// Spoils accepted tables at random, at one refusal or at two so that their order shows.
pub fn damaged(chance: &mut Chance, tables: Tables) -> TableWords {
    let first = chance.between(1, 8);
    let second = match chance.below(4) {
        0 => chance.between(1, 8),
        1 => first % 8 + 1,
        _ => first,
    };
    let mut tables = tables;
    for refusal in [first, second] {
        damage_rows(chance, &mut tables, refusal);
    }
    let mut words = tables.to_words();
    for refusal in [first, second] {
        damage_lengths(chance, &mut words, refusal);
    }
    words
}

fn damage_lengths(chance: &mut Chance, words: &mut TableWords, refusal: u32) {
    match refusal {
        1 => match chance.below(3) {
            0 => words.tasks.clear(),
            1 => words.tasks.resize(165, 1),
            _ => {
                let length = words.tasks.len() + chance.between(1, 4) as usize;
                words.tasks.resize(length, 1);
            }
        },
        2 if chance.one_in(3) => words.connections.resize(195, 0),
        2 => {
            let length = words.connections.len() + chance.between(1, 2) as usize;
            words.connections.resize(length, 0);
        }
        _ => {}
    }
}

fn damage_rows(chance: &mut Chance, tables: &mut Tables, refusal: u32) {
    match refusal {
        3 => spoil_a_task(chance, tables),
        4 => spoil_a_row(chance, tables),
        5 => part_two_periods(chance, tables),
        6 => close_a_circle(chance, tables),
        7 => lower_a_sender(chance, tables),
        8 => exceed_the_multiple(chance, tables),
        _ => {}
    }
}

/// Refusal 3: one value just outside its size, or far outside.
fn spoil_a_task(chance: &mut Chance, tables: &mut Tables) {
    let place = chance.index(tables.tasks.len());
    let task = &mut tables.tasks[place];
    match chance.below(10) {
        0 => task.period = 0,
        1 => task.period = 10_001,
        2 => task.period = 65_535,
        3 => task.deadline = 0,
        4 => task.deadline = task.period + 1,
        5 => task.compute = 0,
        6 => task.compute = task.deadline + 1,
        7 => task.criticality = chance.pick(&[256, 65_535]),
        8 => task.flag = 2,
        _ => task.flag = 65_535,
    }
}

/// Refusal 4: a task number or a kind that does not exist.
fn spoil_a_row(chance: &mut Chance, tables: &mut Tables) {
    let tasks = tables.tasks.len();
    let mut row = Connection {
        sender: chance.index(tasks),
        receiver: chance.index(tasks),
        kind: chance.below(2),
    };
    match chance.below(3) {
        0 => row.sender = chance.pick(&[tasks, 32, 65_535]).max(tasks),
        1 => row.receiver = chance.pick(&[tasks, 255, 256]).max(tasks),
        _ => row.kind = chance.pick(&[2, 3, 65_535]),
    }
    insert(chance, tables, row);
}

/// Refusal 5: an undelayed row between periods of which neither divides the other.
fn part_two_periods(chance: &mut Chance, tables: &mut Tables) {
    let (sender, receiver) = two_tasks(chance, tables);
    let (one, other) = chance.pick(&[(4, 6), (6, 4), (10, 15), (9_999, 10_000)]);
    set_period(&mut tables.tasks[sender], one);
    set_period(&mut tables.tasks[receiver], other);
    insert(chance, tables, undelayed(sender, receiver));
}

/// Refusal 6: a ring of one to six tasks, at times with a way into it from outside. All periods
/// are made alike to stay clear of 5.
fn close_a_circle(chance: &mut Chance, tables: &mut Tables) {
    let tasks = tables.tasks.len();
    let length = 1 + chance.index(tasks.min(6));
    let ring = chance.shuffled(tasks);
    let period = tables.tasks[0].period;
    for task in &mut tables.tasks {
        set_period(task, period);
    }
    for place in 0..length {
        let (sender, receiver) = (ring[place], ring[(place + 1) % length]);
        insert(chance, tables, undelayed(sender, receiver));
    }
    if length < tasks && chance.one_in(2) {
        insert(chance, tables, undelayed(ring[length], ring[0]));
    }
}

/// Refusal 7: an undelayed sender less critical than its receiver, without the flag.
fn lower_a_sender(chance: &mut Chance, tables: &mut Tables) {
    let (sender, receiver) = two_tasks(chance, tables);
    let period = tables.tasks[sender].period;
    set_period(&mut tables.tasks[receiver], period);
    let criticality = chance.below(255);
    tables.tasks[receiver].criticality = criticality;
    tables.tasks[sender].criticality = criticality + 1;
    tables.tasks[sender].flag = 0;
    insert(chance, tables, undelayed(sender, receiver));
}

/// Refusal 8: two periods whose common multiple is just over the limit, or far over it.
fn exceed_the_multiple(chance: &mut Chance, tables: &mut Tables) {
    let (one, other) = two_tasks(chance, tables);
    let (first, second) = match chance.below(3) {
        0 => (9_973, 9_967),
        1 => (1_000, 721),
        _ => just_over(chance),
    };
    set_period(&mut tables.tasks[one], first);
    set_period(&mut tables.tasks[other], second);
}

/// Two periods with nothing in common whose product is the next possible one over the limit.
pub fn just_over(chance: &mut Chance) -> (u32, u32) {
    let first = chance.between(100, 9_000);
    let mut second = GREATEST_MULTIPLE / first + 1;
    while greatest_common_divisor(first.into(), second.into()) != 1 {
        second += 1;
    }
    (first, second)
}

/// Two different tasks. Where there is room they are mostly new ones that no row names yet, so
/// that spoiling them meets no lower refusal.
fn two_tasks(chance: &mut Chance, tables: &mut Tables) -> (usize, usize) {
    let tasks = tables.tasks.len();
    let room = tasks + 2 <= MOST_TASKS;
    if tasks == 1 || (room && !chance.one_in(3)) {
        let period = tables.tasks[0].period.max(1);
        tables
            .tasks
            .extend([task(chance, period), task(chance, period)]);
        return chance.pick(&[(tasks, tasks + 1), (tasks + 1, tasks)]);
    }
    let order = chance.shuffled(tasks);
    (order[0], order[1])
}

fn set_period(task: &mut Task, period: u32) {
    task.period = period;
    task.deadline = period;
    task.compute = 1;
}

/// Puts a row somewhere in the table, which keeps its size of 64.
fn insert(chance: &mut Chance, tables: &mut Tables, row: Connection) {
    tables.connections.truncate(63);
    let place = chance.index(tables.connections.len() + 1);
    tables.connections.insert(place, row);
}
