//! Mistakes about refusal 6.

use super::Mistake;
use crate::model::answer::Refusal;
use crate::model::rules::{Model, RIGHT};
use crate::model::tables::{Tables, UNDELAYED};

pub fn mistakes() -> Vec<Mistake> {
    vec![
        Mistake::new("6: the highest task of a circle is named", HIGHEST_TASK),
        Mistake::new(
            "6: the lowest task that reaches a circle is named",
            REACHES_CIRCLE,
        ),
        Mistake::new("6: the first row of a circle is named", FIRST_ROW),
        Mistake::new("6: the first task found on a circle is named", FIRST_FOUND),
        Mistake::new("6: delayed rows close circles too", DELAYED_CLOSES),
    ]
}

fn on_circle(tables: &Tables, task: usize) -> bool {
    RIGHT.reached(tables, task).contains(&task)
}

const HIGHEST_TASK: Model = Model {
    refusal_6: |_, tables| {
        let mut tasks = (0..tables.tasks.len()).rev();
        let highest = tasks.find(|task| on_circle(tables, *task));
        highest.map(|task| Refusal::new(6, task))
    },
    ..RIGHT
};

const REACHES_CIRCLE: Model = Model {
    refusal_6: |model, tables| {
        let reaches = |task: &usize| {
            let reached = model.reached(tables, *task);
            reached.iter().any(|other| on_circle(tables, *other))
        };
        let lowest = (0..tables.tasks.len()).find(reaches);
        lowest.map(|task| Refusal::new(6, task))
    },
    ..RIGHT
};

const FIRST_ROW: Model = Model {
    refusal_6: |_, tables| {
        let mut rows = tables.connections.iter();
        let first = rows.position(|row| row.is_undelayed() && on_circle(tables, row.sender));
        first.map(|row| Refusal::new(6, row))
    },
    ..RIGHT
};

const FIRST_FOUND: Model = Model {
    refusal_6: |_, tables| {
        let undelayed = tables.connections.iter().filter(|row| row.is_undelayed());
        let mut senders = undelayed.map(|row| row.sender);
        let found = senders.find(|sender| on_circle(tables, *sender));
        found.map(|task| Refusal::new(6, task))
    },
    ..RIGHT
};

const DELAYED_CLOSES: Model = Model {
    refusal_6: |_, tables| {
        let mut tables = tables.clone();
        for row in &mut tables.connections {
            row.kind = UNDELAYED;
        }
        RIGHT.refusal_6(&tables)
    },
    ..RIGHT
};
