//! Tables of every sort, as they are lent.

use super::chance::Chance;
use super::damage::{damaged, just_over};
use super::shapes::{accepted, small, task};
use crate::model::tables::{TableWords, Tables, Task};

pub fn any(chance: &mut Chance) -> TableWords {
    match chance.below(10) {
        0 | 1 => accepted(chance).to_words(),
        2 => edges(chance),
        3 => random_words(chance),
        4 => scarcely_bounded(chance),
        _ => {
            let tables = if chance.one_in(2) {
                accepted(chance)
            } else {
                small(chance)
            };
            damaged(chance, tables)
        }
    }
}

/// A task with its values at the ends of their sizes, half of the time with one just past them.
fn edges(chance: &mut Chance) -> TableWords {
    let period = chance.pick(&[1, 2, 9_999, 10_000]);
    let deadline = chance.pick(&[1, period]);
    let mut row = Task {
        period,
        deadline,
        compute: chance.pick(&[1, deadline]),
        criticality: chance.pick(&[0, 255]),
        flag: chance.below(2),
    };
    match chance.below(10) {
        0 => row.period = 10_001,
        1 => row.deadline = period + 1,
        2 => row.compute = deadline + 1,
        3 => row.criticality = 256,
        4 => row.flag = 2,
        _ => {}
    }
    let mut tables = small(chance);
    let place = chance.index(tables.tasks.len());
    tables.tasks[place] = row;
    if chance.one_in(2) {
        tables.connections.clear();
    }
    tables.to_words()
}

/// Common multiples at the limit, just under it and just over it.
fn scarcely_bounded(chance: &mut Chance) -> TableWords {
    let (first, second) = just_over(chance);
    let periods = match chance.below(4) {
        0 => vec![first, second],
        1 => vec![second, 1, first],
        2 => vec![first, second - 1],
        _ => vec![5_040, 143, chance.pick(&[1, 16, 17, 1_001])],
    };
    let tasks = periods.into_iter().map(|period| task(chance, period));
    let tables = Tables {
        tasks: tasks.collect(),
        connections: Vec::new(),
    };
    tables.to_words()
}

/// Words of no meaning, in any number about the sizes.
fn random_words(chance: &mut Chance) -> TableWords {
    let narrow = chance.one_in(2);
    let tasks = chance.pick(&[0, 1, 4, 5, 6, 10, 155, 159, 160, 161, 165, 170]);
    let rows = chance.pick(&[0, 1, 2, 3, 4, 6, 189, 191, 192, 193, 195]);
    let mut word = |_| {
        let limit = if narrow { 4 } else { 65_536 };
        chance.below(limit) as u16
    };
    TableWords {
        tasks: (0..tasks).map(&mut word).collect(),
        connections: (0..rows).map(&mut word).collect(),
    }
}
