//! Mistakes about the reader.

use super::Mistake;
use crate::model::answer::{Answer, Refusal};
use crate::model::reader::MARK_BYTES;
use crate::model::rules::{Model, RIGHT};

pub fn mistakes() -> Vec<Mistake> {
    vec![
        Mistake::new("reader: high byte first", HIGH_BYTE_FIRST),
        Mistake::new("reader: criticality and flag change places", FLAG_FIRST),
        Mistake::new("reader: receiver before sender", RECEIVER_FIRST),
        Mistake::new("reader: room is asked after the body", ROOM_AFTER_BODY),
        Mistake::new(
            "reader: the 32nd TK and the 64th CN have no room",
            ONE_ROOM_LESS,
        ),
        Mistake::new(
            "reader: a cut body is placed after the mark",
            PLACED_AFTER_MARK,
        ),
        Mistake::new("reader: a cut body is placed at the end", PLACED_AT_END),
        Mistake::new("reader: a cut body counts as no EN", CUT_IS_NO_END),
        Mistake::new("reader: one byte left is an unknown mark", ONE_BYTE_UNKNOWN),
        Mistake::new("reader: one byte left counts as no EN", ONE_BYTE_NO_END),
        Mistake::new("reader: small letters make marks too", SMALL_LETTERS),
        Mistake::new("reader: bytes after EN are left out", TRAILING_LEFT_OUT),
        Mistake::new(
            "reader: bytes after EN are placed at the end",
            TRAILING_AT_END,
        ),
        Mistake::new("reader: bytes after EN are placed at EN", TRAILING_AT_MARK),
        Mistake::new(
            "reader: a missing EN is placed at the last byte",
            NO_END_AT_LAST_BYTE,
        ),
        Mistake::new("reader: a refusal clears the tables", REFUSAL_CLEARS),
        Mistake::new("reader: words past the rows are cleared", REST_CLEARED),
        Mistake::new("reader: 9 only where both tables are short", BOTH_SHORT),
        Mistake::new("reader: 9 after the records", NINE_LAST),
        Mistake::new("shut out: all files are refused", FILES_REFUSED),
        Mistake::new("reader: 9 where too much is lent", NINE_ON_MORE),
    ]
}

const HIGH_BYTE_FIRST: Model = Model {
    two_bytes: |_, first, second| RIGHT.two_bytes(second, first),
    ..RIGHT
};

const FLAG_FIRST: Model = Model {
    task_row: |_, body| {
        let [period, deadline, compute, criticality, flag] = RIGHT.task_row(body);
        [period, deadline, compute, flag, criticality]
    },
    ..RIGHT
};

const RECEIVER_FIRST: Model = Model {
    connection_row: |_, body| {
        let [sender, receiver, kind] = RIGHT.connection_row(body);
        [receiver, sender, kind]
    },
    ..RIGHT
};

type Body = Result<Vec<u8>, Refusal>;

const ROOM_AFTER_BODY: Model = Model {
    body: |_, file, place, length, room| {
        RIGHT.body(file, place, length, true)?;
        RIGHT.body(file, place, length, room)
    },
    ..RIGHT
};

const ONE_ROOM_LESS: Model = Model {
    has_room: |_, records, most| records + 1 < most,
    ..RIGHT
};

/// The right body, with a cut body refused otherwise.
fn cut_as(body: Body, refusal: Refusal) -> Body {
    body.map_err(|given| match given.number {
        11 => refusal,
        _ => given,
    })
}

const PLACED_AFTER_MARK: Model = Model {
    body: |_, file, place, length, room| {
        let refusal = Refusal::new(11, place + MARK_BYTES);
        cut_as(RIGHT.body(file, place, length, room), refusal)
    },
    ..RIGHT
};

const PLACED_AT_END: Model = Model {
    body: |_, file, place, length, room| {
        let refusal = Refusal::new(11, file.len());
        cut_as(RIGHT.body(file, place, length, room), refusal)
    },
    ..RIGHT
};

const CUT_IS_NO_END: Model = Model {
    body: |_, file, place, length, room| {
        let refusal = Refusal::new(13, file.len());
        cut_as(RIGHT.body(file, place, length, room), refusal)
    },
    ..RIGHT
};

const ONE_BYTE_UNKNOWN: Model = Model {
    mark: |_, file, place| match file.len() - place {
        1 => Err(Refusal::new(10, place)),
        _ => RIGHT.mark(file, place),
    },
    ..RIGHT
};

const ONE_BYTE_NO_END: Model = Model {
    mark: |_, file, place| match file.len() - place {
        1 => Err(Refusal::new(13, place)),
        _ => RIGHT.mark(file, place),
    },
    ..RIGHT
};

const SMALL_LETTERS: Model = Model {
    mark: |_, file, place| RIGHT.mark(&file.to_ascii_uppercase(), place),
    ..RIGHT
};

const TRAILING_LEFT_OUT: Model = Model {
    after_end: |_, _file, _place| Ok(()),
    ..RIGHT
};

const TRAILING_AT_END: Model = Model {
    after_end: |_, file, place| {
        let at_end = Refusal::new(13, file.len());
        RIGHT.after_end(file, place).map_err(|_| at_end)
    },
    ..RIGHT
};

const TRAILING_AT_MARK: Model = Model {
    after_end: |_, file, place| {
        let at_mark = Refusal::new(13, place - MARK_BYTES);
        RIGHT.after_end(file, place).map_err(|_| at_mark)
    },
    ..RIGHT
};

const NO_END_AT_LAST_BYTE: Model = Model {
    mark: |_, file, place| match file.len() - place {
        0 => Err(Refusal::new(13, place.saturating_sub(1))),
        _ => RIGHT.mark(file, place),
    },
    ..RIGHT
};

const REFUSAL_CLEARS: Model = Model {
    read: |_, file, tasks, connections| {
        let answer = RIGHT.read(file, tasks, connections);
        if let Answer::Refused(_) = answer {
            tasks.fill(0);
            connections.fill(0);
        }
        answer
    },
    ..RIGHT
};

const REST_CLEARED: Model = Model {
    fill: |_, records, tasks, connections| {
        tasks.fill(0);
        connections.fill(0);
        RIGHT.fill(records, tasks, connections);
    },
    ..RIGHT
};

const BOTH_SHORT: Model = Model {
    read: |_, file, tasks, connections| {
        if tasks.len() < 160 && connections.len() < 192 {
            return Answer::refused(9, 0);
        }
        // One short table alone is taken as if it had been long enough.
        let (mut all_tasks, mut all_connections) = (vec![0; 160], vec![0; 192]);
        if tasks.len() < 160 || connections.len() < 192 {
            return RIGHT.read(file, &mut all_tasks, &mut all_connections);
        }
        RIGHT.read(file, tasks, connections)
    },
    ..RIGHT
};

const NINE_LAST: Model = Model {
    read: |model, file, tasks, connections| match model.records(file) {
        Err(refusal) => Answer::Refused(refusal),
        Ok(_) => RIGHT.read(file, tasks, connections),
    },
    ..RIGHT
};

const NINE_ON_MORE: Model = Model {
    read: |_, file, tasks, connections| {
        if tasks.len() > 160 || connections.len() > 192 {
            return Answer::refused(9, 0);
        }
        RIGHT.read(file, tasks, connections)
    },
    ..RIGHT
};

const FILES_REFUSED: Model = Model {
    records: |_, _| Err(Refusal::new(13, 0)),
    ..RIGHT
};
