//! Machine files: whole, damaged at each of refusals 10 to 13, and of no meaning.

use super::chance::Chance;
use super::shapes::{accepted, small};
use super::tables;
use crate::model::tables::{TableWords, CONNECTION_WORDS, TASK_WORDS};

pub fn any(chance: &mut Chance) -> Vec<u8> {
    match chance.below(15) {
        0 => no_meaning(chance),
        1 => marks_at_random(chance),
        2 | 3 => overfull(chance),
        4 => tiny(chance),
        5..=8 => any_tables(chance),
        9 | 10 => whole(chance),
        _ => {
            let file = whole(chance);
            damaged(chance, file)
        }
    }
}

/// A file that is read and planned.
pub fn whole(chance: &mut Chance) -> Vec<u8> {
    let tables = if chance.one_in(3) {
        accepted(chance)
    } else {
        small(chance)
    };
    of_tables(chance, &tables.to_words())
}

/// The records of the tables in a mixed order, which the reader keeps apart, and EN.
pub fn of_tables(chance: &mut Chance, words: &TableWords) -> Vec<u8> {
    let mut tasks = words.tasks.chunks_exact(TASK_WORDS);
    let mut rows = words.connections.chunks_exact(CONNECTION_WORDS);
    let mut file = Vec::new();
    while tasks.len() + rows.len() > 0 {
        let of_task = chance.index(tasks.len() + rows.len()) < tasks.len();
        let next = if of_task { tasks.next() } else { rows.next() };
        file.extend(next.map(record).unwrap_or_default());
    }
    file.extend(b"EN");
    file
}

fn record(row: &[u16]) -> Vec<u8> {
    let low_byte = |word: &u16| word.to_le_bytes()[0];
    if row.len() == CONNECTION_WORDS {
        let body = row.iter().map(low_byte);
        return b"CN".iter().copied().chain(body).collect();
    }
    let mut bytes = b"TK".to_vec();
    for word in &row[..3] {
        bytes.extend(word.to_le_bytes());
    }
    bytes.extend(row[3..].iter().map(low_byte));
    bytes
}

fn damaged(chance: &mut Chance, mut file: Vec<u8>) -> Vec<u8> {
    match chance.below(6) {
        0 => file.truncate(chance.index(file.len())),
        1 => file.truncate(file.len() - 2),
        2 => file.extend(trailing(chance)),
        3 => {
            let place = chance.index(file.len());
            file[place] = chance.pick(b"TKCNEN tkcn\n\0\xff");
        }
        4 => {
            let place = record_starts(&file)[chance.index(record_starts(&file).len())];
            let mark = chance.pick(&[b"XX", b"KT", b"tk", b"TN", b"CK", b"EK", b"cn", b"\0\0"]);
            file[place..place + 2].copy_from_slice(mark);
        }
        _ => {
            file.remove(chance.index(file.len()));
        }
    }
    file
}

/// Where the marks of a whole file stand.
fn record_starts(file: &[u8]) -> Vec<usize> {
    let mut starts = vec![0];
    let mut place = 0;
    while file[place] != b'E' {
        place += if file[place] == b'T' { 10 } else { 5 };
        starts.push(place);
    }
    starts
}

/// What may stand after EN.
fn trailing(chance: &mut Chance) -> Vec<u8> {
    match chance.below(5) {
        0 => vec![b'\n'],
        1 => b"EN".to_vec(),
        2 => b"TK\x05\0\x05\0\x01\0\0\0EN".to_vec(),
        3 => vec![b'x'; 70_000],
        _ => (0..chance.between(1, 20)).map(|_| chance.byte()).collect(),
    }
}

/// A 33rd TK or a 65th CN, at times with its record cut, and files just within room.
fn overfull(chance: &mut Chance) -> Vec<u8> {
    let tasks = chance.pick(&[31, 32, 32, 33]);
    let rows = chance.pick(&[0, 63, 64, 64, 65]);
    let words = TableWords {
        tasks: [10, 10, 1, 0, 0].repeat(tasks),
        connections: [0, 1, 0].repeat(rows),
    };
    let mut file = of_tables(chance, &words);
    if !chance.one_in(3) {
        // Room is asked before the body: the record in excess comes last and is cut.
        file.truncate(file.len() - 2);
        let in_excess = chance.pick(&[b"TK\x0a\0\x0a\0\x01\0\0\0".as_slice(), b"CN\0\x01\0"]);
        file.extend(&in_excess[..chance.index(in_excess.len()) + 1]);
    }
    file
}

fn tiny(chance: &mut Chance) -> Vec<u8> {
    let files: [&[u8]; 14] = [
        b"",
        b"E",
        b"T",
        b"\n",
        b"EN",
        b"NE",
        b"EN\n",
        b"TK",
        b"CN",
        b"ENEN",
        b"CN\0\0",
        b"TKEN",
        b"CN\0\0\0EN",
        b"C",
    ];
    chance.pick(&files).to_vec()
}

/// Tables that the reader takes and the planner mostly refuses.
fn any_tables(chance: &mut Chance) -> Vec<u8> {
    let words = tables::any(chance);
    of_tables(chance, &words)
}

fn no_meaning(chance: &mut Chance) -> Vec<u8> {
    let length = chance.below(60);
    (0..length).map(|_| chance.byte()).collect()
}

/// Records with bodies of chance, now and then with a body that looks like a mark.
fn marks_at_random(chance: &mut Chance) -> Vec<u8> {
    let mut file = Vec::new();
    for _ in 0..chance.below(12) {
        let of_task = chance.one_in(2);
        file.extend(if of_task { b"TK" } else { b"CN" });
        for _ in 0..if of_task { 8 } else { 3 } {
            let byte = chance.byte();
            file.push(chance.pick(&[byte, byte, b'E', b'N']));
        }
    }
    file.extend(b"EN");
    file
}
