//! Tables that none of refusals 1 to 8 turns away, in the shapes that matter to the order.

use super::chance::Chance;
use crate::model::tables::{Connection, Tables, Task, DELAYED, MOST_TASKS, UNDELAYED};

/// Sets of periods in which of each two one divides the other, with short common multiples so
/// that runs pass the end of the cycle.
const HARMONIC: [&[u32]; 9] = [
    &[1, 2, 4, 8],
    &[3, 6, 12],
    &[5, 10, 20],
    &[2, 4, 12],
    &[1, 3, 9],
    &[5, 10],
    &[4, 8, 16],
    &[2, 10],
    &[7],
];

const MIXED: [u32; 9] = [1, 2, 3, 4, 5, 6, 8, 10, 12];

/// Periods whose common multiple is exactly 720,720.
const EXACT: [&[u32]; 4] = [
    &[5_040, 143],
    &[720, 1_001],
    &[9_009, 80],
    &[16, 9, 5, 7, 11, 13],
];

/// Tables that are accepted, of any shape.
pub fn accepted(chance: &mut Chance) -> Tables {
    match chance.below(12) {
        0 => single(chance),
        1 => chain(chance),
        2 => diamonds(chance),
        3 => full(chance),
        4 => long_periods(chance),
        5 => greatest_multiple(chance),
        _ => small(chance),
    }
}

/// A few tasks with short periods and many connections: most of what can happen in a run does.
pub fn small(chance: &mut Chance) -> Tables {
    let tasks = chance.between(1, 6) as usize;
    let rows = chance.below(9) as usize;
    if chance.one_in(4) {
        return scattered(chance, tasks, &MIXED, rows);
    }
    let periods = chance.pick(&HARMONIC);
    scattered(chance, tasks, periods, rows)
}

/// 1 task, with nothing or only itself to receive from.
fn single(chance: &mut Chance) -> Tables {
    let rows = chance.below(3) as usize;
    scattered(chance, 1, &[1, 2, 7, 9_999, 10_000], rows)
}

/// 32 tasks and 64 connections.
fn full(chance: &mut Chance) -> Tables {
    let periods = chance.pick(&HARMONIC);
    scattered(chance, MOST_TASKS, periods, 64)
}

fn long_periods(chance: &mut Chance) -> Tables {
    let tasks = chance.between(1, 5) as usize;
    let rows = chance.below(8) as usize;
    scattered(chance, tasks, &[1_000, 5_000, 10_000, 2_500, 1], rows)
}

fn greatest_multiple(chance: &mut Chance) -> Tables {
    let mut periods = chance.pick(&EXACT).to_vec();
    chance.shuffle(&mut periods);
    let tasks = periods.iter().map(|period| task(chance, *period));
    let tables = Tables {
        tasks: tasks.collect(),
        connections: Vec::new(),
    };
    with_rows(chance, tables, 4)
}

/// Chains of up to 31 links, with links left out, doubled, or bridged by a shorter way.
fn chain(chance: &mut Chance) -> Tables {
    let tasks = chance.pick(&[2, 3, 5, 8, 31, 32, 32]);
    let along = chance.shuffled(tasks);
    let mut tables = tasks_of(chance, tasks);
    for link in along.windows(2) {
        tables.connections.push(undelayed(link[0], link[1]));
    }
    for _ in 0..chance.below(30) {
        let first = chance.index(tasks - 1);
        let last = first + 1 + chance.index(tasks - first - 1);
        tables
            .connections
            .push(undelayed(along[first], along[last]));
    }
    finished(chance, tables)
}

/// Two ways from each corner to the next but one.
fn diamonds(chance: &mut Chance) -> Tables {
    let count = chance.between(1, 10) as usize;
    let tasks = 3 * count + 1;
    let along = chance.shuffled(tasks);
    let mut tables = tasks_of(chance, tasks);
    for diamond in 0..count {
        let corner = |step: usize| along[3 * diamond + step];
        for (sender, receiver) in [(0, 1), (0, 2), (1, 3), (2, 3)] {
            let row = undelayed(corner(sender), corner(receiver));
            tables.connections.push(row);
        }
        if chance.one_in(3) {
            tables.connections.push(undelayed(corner(1), corner(2)));
        }
    }
    finished(chance, tables)
}

/// Tasks without connections. Half of the time their deadlines are all alike, so that only the
/// lengths of the chains tell them apart.
fn tasks_of(chance: &mut Chance, tasks: usize) -> Tables {
    let periods = chance.pick(&HARMONIC);
    let mut tables = scattered(chance, tasks, periods, 0);
    if chance.one_in(2) {
        for task in &mut tables.tasks {
            (task.period, task.deadline, task.compute) = (periods[0], periods[0], 1);
        }
    }
    tables
}

fn scattered(chance: &mut Chance, tasks: usize, periods: &[u32], rows: usize) -> Tables {
    let alike = chance.one_in(4);
    let common = chance.pick(periods);
    let mut tables = Tables::default();
    for _ in 0..tasks {
        let period = if alike { common } else { chance.pick(periods) };
        tables.tasks.push(task(chance, period));
    }
    with_rows(chance, tables, rows)
}

/// A task of a period. Deadlines are often equal, so that ties come up.
pub fn task(chance: &mut Chance, period: u32) -> Task {
    let deadline = match chance.below(5) {
        0 => chance.between(1, period),
        1 => period.div_ceil(2),
        _ => period,
    };
    let compute = match chance.below(3) {
        0 => deadline,
        1 => 1,
        _ => chance.between(1, deadline),
    };
    let criticality = match chance.below(6) {
        0 => chance.below(256),
        1 => 255,
        _ => chance.below(3),
    };
    Task {
        period,
        deadline,
        compute,
        criticality,
        flag: chance.below(2),
    }
}

/// Adds rows of both kinds. Undelayed rows follow a hidden order of the tasks, so that none
/// returns to its start; rows that no undelayed connection may take become delayed.
fn with_rows(chance: &mut Chance, mut tables: Tables, rows: usize) -> Tables {
    let tasks = tables.tasks.len();
    let rank = chance.shuffled(tasks);
    for _ in 0..rows {
        let (mut sender, mut receiver) = (chance.index(tasks), chance.index(tasks));
        let mut kind = chance.pick(&[DELAYED, UNDELAYED, UNDELAYED]);
        if rank[sender] > rank[receiver] && kind == UNDELAYED {
            (sender, receiver) = (receiver, sender);
        }
        let (one, other) = (tables.tasks[sender].period, tables.tasks[receiver].period);
        if sender == receiver || (one % other != 0 && other % one != 0) {
            kind = DELAYED;
        }
        tables.connections.push(Connection {
            sender,
            receiver,
            kind,
        });
    }
    finished(chance, tables)
}

/// Mixes the rows and sets the flags that refusal 7 wants.
fn finished(chance: &mut Chance, mut tables: Tables) -> Tables {
    tables.connections.truncate(64);
    chance.shuffle(&mut tables.connections);
    for row in &tables.connections {
        let receiver = tables.tasks[row.receiver].criticality;
        let sender = &mut tables.tasks[row.sender];
        if row.is_undelayed() && sender.criticality > receiver {
            sender.flag = 1;
        }
    }
    tables
}

pub fn undelayed(sender: usize, receiver: usize) -> Connection {
    Connection {
        sender,
        receiver,
        kind: UNDELAYED,
    }
}
