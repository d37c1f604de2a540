//! Standard input of the step program: calls that suit a run, with bad lines among them.

use super::calls::Habit;
use super::chance::Chance;
use crate::model::answer::{Answer, Call};
use crate::model::rules::RIGHT;
use crate::model::state::State;

pub const BAD_LINES: [&[u8]; 34] = [
    b"",
    b" ",
    b"t ",
    b" t",
    b"T",
    b"tt",
    b"t\r",
    b"t 1",
    b"c",
    b"c ",
    b"c\r",
    b"C 1",
    b"c1",
    b"c  1",
    b"c\t1",
    b"c 1 ",
    b"c 1\r",
    b" c 1",
    b"c 1 2",
    b"c -1",
    b"c +1",
    b"c 1x",
    b"c x",
    b"c 0x10",
    b"c 1.0",
    b"c 4294967296",
    b"c 5000000000",
    b"c 9999999999",
    b"c 00000000001",
    b"c 18446744073709551617",
    b"\0",
    b"t\0",
    b"\xff\xfe",
    b"c \xd9\xa1",
];

/// Lines for a machine file. Where the file or its plan is refused, any lines do.
pub fn any(chance: &mut Chance, file: &[u8]) -> Vec<u8> {
    let mut lines = match RIGHT.tables_of(file) {
        Ok(words) => {
            let (answer, state) = RIGHT.fresh_start(&words.tasks, &words.connections);
            match answer {
                Answer::Refused(_) => some_lines(chance),
                _ => run_lines(chance, state),
            }
        }
        Err(_) => some_lines(chance),
    };
    match chance.below(6) {
        0 if lines.ends_with(b"\n") => lines.truncate(lines.len() - 1),
        1 => lines.extend(b"\n"),
        _ => {}
    }
    lines
}

fn run_lines(chance: &mut Chance, mut state: State) -> Vec<u8> {
    let habit = Habit::any(chance);
    let mut lines = Vec::new();
    let mut after_halt = 0;
    for _ in 0..chance.below(200) {
        if chance.one_in(16) {
            bad_line(chance, &mut lines);
            continue;
        }
        let call = if habit.completes(chance, &RIGHT, &state) {
            Call::Complete(chance.word())
        } else {
            Call::Tick
        };
        lines.extend(call_line(chance, call));
        state = RIGHT.call(&state, call).1;
        after_halt += u32::from(state.halted);
        if after_halt > 5 {
            break;
        }
    }
    lines
}

/// A call as a line, its word now and then with leading zeros.
fn call_line(chance: &mut Chance, call: Call) -> Vec<u8> {
    let text = match call {
        Call::Complete(word) if chance.one_in(8) => format!("c {word:010}"),
        Call::Complete(word) if chance.one_in(8) => format!("c {word:05}"),
        _ => call.text(),
    };
    format!("{text}\n").into_bytes()
}

fn bad_line(chance: &mut Chance, lines: &mut Vec<u8>) {
    match chance.below(20) {
        0 => lines.extend([b'c'; 5_000]),
        1 => lines.extend((0..chance.below(6)).map(|_| chance.byte())),
        _ => lines.extend(chance.pick(&BAD_LINES)),
    }
    lines.push(b'\n');
}

fn some_lines(chance: &mut Chance) -> Vec<u8> {
    let mut lines = Vec::new();
    for _ in 0..chance.below(4) {
        let word = chance.word();
        let call = chance.pick(&[Call::Tick, Call::Complete(word)]);
        lines.extend(call_line(chance, call));
        if chance.one_in(3) {
            bad_line(chance, &mut lines);
        }
    }
    lines
}
