//! Mistakes about refusals 1 to 5, 7 and 8.

use super::Mistake;
use crate::model::answer::Refusal;
use crate::model::rules::{Model, RIGHT};
use crate::model::tables::{Connection, Tables, Task, UNDELAYED};

pub fn mistakes() -> Vec<Mistake> {
    vec![
        Mistake::new("1: no tasks are accepted", NO_TASKS_TAKEN),
        Mistake::new("2: 64 connections are refused", SIXTY_FOUR_REFUSED),
        Mistake::new("3: period 10,000 is refused", LONGEST_PERIOD_REFUSED),
        Mistake::new(
            "3: a deadline over the period is accepted",
            DEADLINE_OVER_PERIOD,
        ),
        Mistake::new(
            "3: a compute over the deadline is accepted",
            COMPUTE_OVER_DEADLINE,
        ),
        Mistake::new(
            "3: compute equal to the deadline is refused",
            COMPUTE_OF_DEADLINE,
        ),
        Mistake::new("3: criticality 256 is accepted", CRITICALITY_OVER),
        Mistake::new("3: flag 2 is accepted", FLAG_OVER),
        Mistake::new("3: the last task is named", LAST_TASK_NAMED),
        Mistake::new("4, 5 and 7: the last row is named", LAST_ROW_NAMED),
        Mistake::new("4: kind 2 is accepted", KIND_OVER),
        Mistake::new("4: only the sender is judged", SENDER_ONLY),
        Mistake::new("4 and 5 are judged row by row", ROW_BY_ROW),
        Mistake::new("5: the sender's period has to divide", SENDER_DIVIDES),
        Mistake::new("5: delayed rows are judged too", FIVE_ON_DELAYED),
        Mistake::new("7: internal criticalities are judged", SEVEN_ON_INTERNAL),
        Mistake::new("7: the receiver's flag is asked", FLAG_OF_RECEIVER),
        Mistake::new("7: equal criticalities are refused", EQUAL_CRITICALITIES),
        Mistake::new("7: more critical senders are refused", SEVEN_BACKWARDS),
        Mistake::new("7: delayed rows are judged too", SEVEN_ON_DELAYED),
        Mistake::new("8: 720,720 is refused", GREATEST_MULTIPLE_REFUSED),
        Mistake::new("8: the product of the periods is taken", PRODUCT),
        Mistake::new("8: the longest period is taken", LONGEST_PERIOD),
        Mistake::new("6 and 7 change places", SEVEN_BEFORE_SIX),
        Mistake::new("7 and 8 change places", EIGHT_BEFORE_SEVEN),
    ]
}

const NO_TASKS_TAKEN: Model = Model {
    refusal_1: |_, task_words| {
        RIGHT
            .refusal_1(task_words)
            .filter(|_| !task_words.is_empty())
    },
    ..RIGHT
};

const SIXTY_FOUR_REFUSED: Model = Model {
    refusal_2: |_, connection_words| {
        let refused = connection_words.len() >= 192 || connection_words.len() % 3 != 0;
        refused.then_some(Refusal::new(2, 0))
    },
    ..RIGHT
};

const LONGEST_PERIOD_REFUSED: Model = Model {
    task_fits: |_, task| RIGHT.task_fits(task) && task.period < 10_000,
    ..RIGHT
};

const DEADLINE_OVER_PERIOD: Model = Model {
    task_fits: |_, task| {
        let deadline = task.deadline.min(task.period);
        let compute = task.compute.min(deadline);
        let within = Task {
            deadline,
            compute,
            ..*task
        };
        RIGHT.task_fits(&within) && task.compute <= task.deadline
    },
    ..RIGHT
};

const COMPUTE_OVER_DEADLINE: Model = Model {
    task_fits: |_, task| {
        let compute = task.compute.min(task.deadline);
        RIGHT.task_fits(&Task { compute, ..*task })
    },
    ..RIGHT
};

const COMPUTE_OF_DEADLINE: Model = Model {
    task_fits: |_, task| RIGHT.task_fits(task) && task.compute < task.deadline.max(2),
    ..RIGHT
};

const CRITICALITY_OVER: Model = Model {
    task_fits: |_, task| {
        let criticality = match task.criticality {
            256 => 255,
            other => other,
        };
        RIGHT.task_fits(&Task {
            criticality,
            ..*task
        })
    },
    ..RIGHT
};

const FLAG_OVER: Model = Model {
    task_fits: |_, task| {
        let flag = task.flag.min(1);
        RIGHT.task_fits(&Task { flag, ..*task })
    },
    ..RIGHT
};

const LAST_TASK_NAMED: Model = Model {
    refusal_3: |model, tables| {
        let last = tables.tasks.iter().rposition(|task| !model.task_fits(task));
        last.map(|task| Refusal::new(3, task))
    },
    ..RIGHT
};

const LAST_ROW_NAMED: Model = Model {
    refusal_4: |model, tables| {
        let tasks = tables.tasks.len();
        let mut rows = tables.connections.iter();
        let last = rows.rposition(|row| !model.connection_fits(row, tasks));
        last.map(|row| Refusal::new(4, row))
    },
    refusal_5: |model, tables| {
        let mut rows = tables.connections.iter();
        let last = rows.rposition(|row| model.refuses_5(tables, row));
        last.map(|row| Refusal::new(5, row))
    },
    refusal_7: |model, tables| {
        let mut rows = tables.connections.iter();
        let last = rows.rposition(|row| model.refuses_7(tables, row));
        last.map(|row| Refusal::new(7, row))
    },
    ..RIGHT
};

const KIND_OVER: Model = Model {
    connection_fits: |_, row, tasks| row.sender < tasks && row.receiver < tasks && row.kind <= 2,
    ..RIGHT
};

/// A receiver that is no task then passes for a circle, before any rule looks it up.
const SENDER_ONLY: Model = Model {
    refusal_4: |_, tables| {
        let sender_fits = |row: &Connection| row.sender < tables.tasks.len() && row.kind <= 1;
        let first = tables.connections.iter().position(|row| !sender_fits(row));
        first.map(|row| Refusal::new(4, row))
    },
    refuses_5: |_, tables, row| {
        let receiver = row.receiver.min(tables.tasks.len() - 1);
        RIGHT.refuses_5(tables, &Connection { receiver, ..*row })
    },
    refusal_6: |_, tables| {
        let tasks = tables.tasks.len();
        let outside = tables.connections.iter().any(|row| row.receiver >= tasks);
        match outside {
            true => Some(Refusal::new(6, 0)),
            false => RIGHT.refusal_6(tables),
        }
    },
    ..RIGHT
};

const ROW_BY_ROW: Model = Model {
    refusal_4: |model, tables| {
        let tasks = tables.tasks.len();
        for (number, row) in tables.connections.iter().enumerate() {
            if !model.connection_fits(row, tasks) {
                return Some(Refusal::new(4, number));
            }
            if model.refuses_5(tables, row) {
                return Some(Refusal::new(5, number));
            }
        }
        None
    },
    ..RIGHT
};

const SENDER_DIVIDES: Model = Model {
    refuses_5: |_, tables, row| {
        let sender = tables.tasks[row.sender].period;
        let receiver = tables.tasks[row.receiver].period;
        row.is_undelayed() && receiver % sender != 0
    },
    ..RIGHT
};

const FIVE_ON_DELAYED: Model = Model {
    refuses_5: |_, tables, row| {
        let kind = UNDELAYED;
        RIGHT.refuses_5(tables, &Connection { kind, ..*row })
    },
    ..RIGHT
};

const SEVEN_ON_INTERNAL: Model = Model {
    refuses_7: |_, tables, row| {
        let internal = |task| RIGHT.internal_criticality(tables, task);
        let flag = tables.tasks[row.sender].flag;
        row.is_undelayed() && internal(row.sender) > internal(row.receiver) && flag == 0
    },
    ..RIGHT
};

const FLAG_OF_RECEIVER: Model = Model {
    refuses_7: |_, tables, row| {
        let (sender, receiver) = (tables.tasks[row.sender], tables.tasks[row.receiver]);
        row.is_undelayed() && sender.criticality > receiver.criticality && receiver.flag == 0
    },
    ..RIGHT
};

const EQUAL_CRITICALITIES: Model = Model {
    refuses_7: |_, tables, row| {
        let (sender, receiver) = (tables.tasks[row.sender], tables.tasks[row.receiver]);
        row.is_undelayed() && sender.criticality >= receiver.criticality && sender.flag == 0
    },
    ..RIGHT
};

const SEVEN_BACKWARDS: Model = Model {
    refuses_7: |_, tables, row| {
        let (sender, receiver) = (tables.tasks[row.sender], tables.tasks[row.receiver]);
        row.is_undelayed() && sender.criticality < receiver.criticality && sender.flag == 0
    },
    ..RIGHT
};

const SEVEN_ON_DELAYED: Model = Model {
    refuses_7: |_, tables, row| {
        let kind = UNDELAYED;
        RIGHT.refuses_7(tables, &Connection { kind, ..*row })
    },
    ..RIGHT
};

const GREATEST_MULTIPLE_REFUSED: Model = Model {
    common_multiple: |_, tables| {
        RIGHT
            .common_multiple(tables)
            .filter(|multiple| *multiple < 720_720)
    },
    ..RIGHT
};

const PRODUCT: Model = Model {
    common_multiple: |_, tables| {
        let mut product: u32 = 1;
        for task in &tables.tasks {
            product = product.checked_mul(task.period)?;
        }
        (product <= 720_720).then_some(product)
    },
    ..RIGHT
};

const LONGEST_PERIOD: Model = Model {
    common_multiple: |_, tables| tables.tasks.iter().map(|task| task.period).max(),
    ..RIGHT
};

fn one_to_five(tables: &Tables, task_words: &[u16], connection_words: &[u16]) -> Option<Refusal> {
    RIGHT
        .refusal_1(task_words)
        .or_else(|| RIGHT.refusal_2(connection_words))
        .or_else(|| RIGHT.refusal_3(tables))
        .or_else(|| RIGHT.refusal_4(tables))
        .or_else(|| RIGHT.refusal_5(tables))
}

const SEVEN_BEFORE_SIX: Model = Model {
    table_refusal: |model, task_words, connection_words| {
        let tables = Tables::from_words(task_words, connection_words);
        one_to_five(&tables, task_words, connection_words)
            .or_else(|| model.refusal_7(&tables))
            .or_else(|| model.refusal_6(&tables))
            .or_else(|| model.refusal_8(&tables))
    },
    ..RIGHT
};

const EIGHT_BEFORE_SEVEN: Model = Model {
    table_refusal: |model, task_words, connection_words| {
        let tables = Tables::from_words(task_words, connection_words);
        one_to_five(&tables, task_words, connection_words)
            .or_else(|| model.refusal_6(&tables))
            .or_else(|| model.refusal_8(&tables))
            .or_else(|| model.refusal_7(&tables))
    },
    ..RIGHT
};
