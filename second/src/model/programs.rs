//! What the list program and the step program print.

use super::answer::{Answer, Call};
use super::rules::Model;
use super::tables::{TableWords, CONNECTION_WORDS, MOST_CONNECTIONS, MOST_TASKS, TASK_WORDS};

pub const HEADER: &str = "place task deadline criticality\n";

/// The tables of a machine file, or the refusal of the file.
pub fn tables_of(model: &Model, file: &[u8]) -> Result<TableWords, Answer> {
    let mut words = TableWords {
        tasks: vec![0; MOST_TASKS * TASK_WORDS],
        connections: vec![0; MOST_CONNECTIONS * CONNECTION_WORDS],
    };
    let answer = model.read(file, &mut words.tasks, &mut words.connections);
    let Answer::Read { tasks, connections } = answer else {
        return Err(answer);
    };
    words.tasks.truncate(tasks * TASK_WORDS);
    words.connections.truncate(connections * CONNECTION_WORDS);
    Ok(words)
}

/// The list program: a refused file or plan prints its one line and no header.
pub fn list(model: &Model, file: &[u8]) -> String {
    let words = match model.tables_of(file) {
        Ok(words) => words,
        Err(answer) => return line(&answer.text()),
    };
    let (answer, plan) = model.plan(&words.tasks, &words.connections);
    if let Answer::Refused(_) = answer {
        return line(&answer.text());
    }
    let mut text = HEADER.to_string();
    for place in 0..words.tasks.len() / TASK_WORDS {
        let task = plan.order[place] as usize;
        let (deadline, criticality) = (plan.deadlines[task], plan.criticalities[task]);
        text += &model.list_line(place, task, deadline, criticality);
    }
    text
}

/// Places are printed from 1.
pub fn list_line(_: &Model, place: usize, task: usize, deadline: u32, criticality: u32) -> String {
    line(&format!("{} {task} {deadline} {criticality}", place + 1))
}

/// The step program: a refusal of the file or of the fresh start is printed alone.
pub fn step(model: &Model, file: &[u8], calls: &[u8]) -> String {
    let words = match model.tables_of(file) {
        Ok(words) => words,
        Err(answer) => return line(&answer.text()),
    };
    let (answer, mut state) = model.fresh_start(&words.tasks, &words.connections);
    if let Answer::Refused(_) = answer {
        return line(&answer.text());
    }
    let mut text = String::new();
    for call_line in model.lines(calls) {
        let Some(call) = model.call_of(&call_line) else {
            text += &line("bad line");
            continue;
        };
        let (answer, after) = model.call(&state, call);
        state = after;
        text += &line(&answer.text());
    }
    text
}

/// A line ends at byte 10; a last line without it counts if it has a byte.
pub fn lines(_: &Model, calls: &[u8]) -> Vec<Vec<u8>> {
    let mut lines: Vec<Vec<u8>> = calls
        .split(|byte| *byte == b'\n')
        .map(<[u8]>::to_vec)
        .collect();
    if lines.last().is_some_and(|last| last.is_empty()) {
        lines.pop();
    }
    lines
}

/// `t`, or `c`, a space and a word; none for a bad line.
pub fn call_of(model: &Model, call_line: &[u8]) -> Option<Call> {
    match call_line {
        [b't'] => Some(Call::Tick),
        [b'c', b' ', digits @ ..] => model.word_of(digits).map(Call::Complete),
        _ => None,
    }
}

/// One to ten digits, at most 4,294,967,295.
pub fn word_of(_: &Model, digits: &[u8]) -> Option<u32> {
    if !(1..=10).contains(&digits.len()) || !digits.iter().all(u8::is_ascii_digit) {
        return None;
    }
    let number = decimal(digits);
    (number <= u64::from(u32::MAX)).then_some(number as u32)
}

pub fn decimal(digits: &[u8]) -> u64 {
    let add = |number: u64, digit: &u8| number * 10 + u64::from(digit - b'0');
    digits.iter().fold(0, add)
}

pub fn line(text: &str) -> String {
    format!("{text}\n")
}
