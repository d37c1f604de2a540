//! The reader of the machine file: refusals 9 to 13.

use super::answer::{Answer, Refusal};
use super::rules::Model;
use super::tables::{CONNECTION_WORDS, MOST_CONNECTIONS, MOST_TASKS, TASK_WORDS};

pub const MARK_BYTES: usize = 2;
pub const TASK_BODY: usize = 8;
pub const CONNECTION_BODY: usize = 3;

#[derive(Clone, Copy, PartialEq, Eq)]
pub enum Mark {
    Task,
    Connection,
    End,
}

/// What a file's records hold, in file order.
#[derive(Default)]
pub struct Records {
    pub tasks: Vec<[u16; TASK_WORDS]>,
    pub connections: Vec<[u16; CONNECTION_WORDS]>,
}

pub fn read(model: &Model, file: &[u8], tasks: &mut [u16], connections: &mut [u16]) -> Answer {
    if tasks.len() < MOST_TASKS * TASK_WORDS
        || connections.len() < MOST_CONNECTIONS * CONNECTION_WORDS
    {
        return Answer::refused(9, 0);
    }
    match model.records(file) {
        Err(refusal) => Answer::Refused(refusal),
        Ok(records) => {
            model.fill(&records, tasks, connections);
            Answer::Read {
                tasks: records.tasks.len(),
                connections: records.connections.len(),
            }
        }
    }
}

pub fn records(model: &Model, file: &[u8]) -> Result<Records, Refusal> {
    let mut records = Records::default();
    let mut place = 0;
    loop {
        match model.mark(file, place)? {
            Mark::End => {
                model.after_end(file, place + MARK_BYTES)?;
                return Ok(records);
            }
            Mark::Task => {
                let room = model.has_room(records.tasks.len(), MOST_TASKS);
                let body = model.body(file, place, TASK_BODY, room)?;
                records.tasks.push(model.task_row(&body));
                place += MARK_BYTES + TASK_BODY;
            }
            Mark::Connection => {
                let room = model.has_room(records.connections.len(), MOST_CONNECTIONS);
                let body = model.body(file, place, CONNECTION_BODY, room)?;
                records.connections.push(model.connection_row(&body));
                place += MARK_BYTES + CONNECTION_BODY;
            }
        }
    }
}

/// The mark at a place, or refusal 10, 11 or 13.
pub fn mark(_: &Model, file: &[u8], place: usize) -> Result<Mark, Refusal> {
    match file[place..] {
        [] => Err(Refusal::new(13, place)),
        [_] => Err(Refusal::new(11, place)),
        [b'T', b'K', ..] => Ok(Mark::Task),
        [b'C', b'N', ..] => Ok(Mark::Connection),
        [b'E', b'N', ..] => Ok(Mark::End),
        _ => Err(Refusal::new(10, place)),
    }
}

/// Nothing may follow EN; the place is the byte right after it.
pub fn after_end(_: &Model, file: &[u8], place: usize) -> Result<(), Refusal> {
    if file.len() > place {
        return Err(Refusal::new(13, place));
    }
    Ok(())
}

/// Refusal 12 counts records, not the words lent.
pub fn has_room(_: &Model, records: usize, most: usize) -> bool {
    records < most
}

/// The body of the record whose mark stands at `place`: room is asked before the body.
pub fn body(
    _: &Model,
    file: &[u8],
    place: usize,
    length: usize,
    room: bool,
) -> Result<Vec<u8>, Refusal> {
    if !room {
        return Err(Refusal::new(12, place));
    }
    let after_mark = &file[place + MARK_BYTES..];
    let body = after_mark.get(..length).ok_or(Refusal::new(11, place))?;
    Ok(body.to_vec())
}

pub fn task_row(model: &Model, body: &[u8]) -> [u16; TASK_WORDS] {
    [
        model.two_bytes(body[0], body[1]),
        model.two_bytes(body[2], body[3]),
        model.two_bytes(body[4], body[5]),
        body[6].into(),
        body[7].into(),
    ]
}

pub fn connection_row(_: &Model, body: &[u8]) -> [u16; CONNECTION_WORDS] {
    [body[0].into(), body[1].into(), body[2].into()]
}

/// Two bytes of a file, low byte first.
pub fn two_bytes(_: &Model, first: u8, second: u8) -> u16 {
    u16::from(first) + 256 * u16::from(second)
}

/// Fills the rows read; words past them stay unchanged.
pub fn fill(_: &Model, records: &Records, tasks: &mut [u16], connections: &mut [u16]) {
    let task_words = records.tasks.concat();
    let connection_words = records.connections.concat();
    tasks[..task_words.len()].copy_from_slice(&task_words);
    connections[..connection_words.len()].copy_from_slice(&connection_words);
}
