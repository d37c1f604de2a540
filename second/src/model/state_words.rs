//! The state and the plan as runs of 32-bit words.

use super::planner::Plan;
use super::state::{Phase, State};
use super::tables::{Connection, Task, MOST_CONNECTIONS, MOST_TASKS};

pub const PLAN_WORDS: usize = 97;
pub const STATE_WORDS: usize = 614;

const WIDE: u32 = u32::MAX;
const TWO_BYTES: u32 = 65_535;
const ONE_BYTE: u32 = 255;
const MARK: u32 = 1;
const PHASE: u32 = 2;

/// A part of the state's words: its name, its number of rows, and what each word of a row can hold
/// at most.
pub struct Part {
    pub name: &'static str,
    pub rows: usize,
    pub limits: &'static [u32],
}

/// The parts of a state in the order of their words.
pub const PARTS: [Part; 9] = [
    part("head", 1, &[WIDE, WIDE, WIDE, WIDE, MARK, MARK]),
    part(
        "task",
        MOST_TASKS,
        &[TWO_BYTES, TWO_BYTES, TWO_BYTES, ONE_BYTE, MARK],
    ),
    part("connection", MOST_CONNECTIONS, &[ONE_BYTE, ONE_BYTE, MARK]),
    part("order", MOST_TASKS, &[ONE_BYTE]),
    part("phase", MOST_TASKS, &[PHASE]),
    part("output", MOST_TASKS, &[WIDE]),
    part("dispatch cycle", MOST_TASKS, &[WIDE]),
    part("buffer", MOST_CONNECTIONS, &[WIDE]),
    part("input", MOST_CONNECTIONS, &[WIDE]),
];

const fn part(name: &'static str, rows: usize, limits: &'static [u32]) -> Part {
    Part { name, rows, limits }
}

/// The most each of the 614 words can hold.
pub fn limits() -> Vec<u32> {
    let of_part = |part: &Part| part.limits.repeat(part.rows);
    PARTS.iter().flat_map(of_part).collect()
}

/// Where the words of a part begin.
pub fn start_of(name: &str) -> usize {
    let before = PARTS.iter().take_while(|part| part.name != name);
    before.map(|part| part.rows * part.limits.len()).sum()
}

/// What a word of the state stands for, for reports.
pub fn name_of(index: usize) -> String {
    let mut left = index;
    for part in &PARTS {
        let row_words = part.limits.len();
        if left < part.rows * row_words {
            return format!(
                "{} {} value {}",
                part.name,
                left / row_words,
                left % row_words
            );
        }
        left -= part.rows * row_words;
    }
    format!("word {index} past the state")
}

pub fn plan_words(plan: &Plan) -> Vec<u32> {
    let mut words = vec![plan.multiple];
    words.extend(plan.order);
    words.extend(plan.deadlines);
    words.extend(plan.criticalities);
    words
}

pub fn state_words(state: &State) -> Vec<u32> {
    let mut words = vec![
        state.task_count as u32,
        state.connection_count as u32,
        state.multiple,
        state.cycle,
        state.ticked.into(),
        state.halted.into(),
    ];
    for task in &state.tasks {
        words.extend([task.period, task.deadline, task.compute]);
        words.extend([task.criticality, task.flag]);
    }
    for row in &state.connections {
        words.extend([row.sender as u32, row.receiver as u32, row.kind]);
    }
    words.extend(state.order.map(|task| task as u32));
    words.extend(state.phases.map(phase_word));
    words.extend(state.outputs);
    words.extend(state.dispatched);
    words.extend(state.buffers);
    words.extend(state.inputs);
    words
}

/// The state that 614 words encode, or none where a word is too wide for its field.
pub fn state_of(words: &[u32]) -> Option<State> {
    let fits = |(word, limit): (&u32, u32)| *word <= limit;
    if words.len() != STATE_WORDS || !words.iter().zip(limits()).all(fits) {
        return None;
    }
    let mut words = words.iter().copied();
    let mut next = || words.next().unwrap_or(0);
    Some(State {
        task_count: next() as usize,
        connection_count: next() as usize,
        multiple: next(),
        cycle: next(),
        ticked: next() == 1,
        halted: next() == 1,
        tasks: [(); MOST_TASKS].map(|()| next_task(&mut next)),
        connections: [(); MOST_CONNECTIONS].map(|()| next_connection(&mut next)),
        order: [(); MOST_TASKS].map(|()| next() as usize),
        phases: [(); MOST_TASKS].map(|()| phase_of(next())),
        outputs: [(); MOST_TASKS].map(|()| next()),
        dispatched: [(); MOST_TASKS].map(|()| next()),
        buffers: [(); MOST_CONNECTIONS].map(|()| next()),
        inputs: [(); MOST_CONNECTIONS].map(|()| next()),
    })
}

fn next_task(next: &mut impl FnMut() -> u32) -> Task {
    Task {
        period: next(),
        deadline: next(),
        compute: next(),
        criticality: next(),
        flag: next(),
    }
}

fn next_connection(next: &mut impl FnMut() -> u32) -> Connection {
    Connection {
        sender: next() as usize,
        receiver: next() as usize,
        kind: next(),
    }
}

fn phase_word(phase: Phase) -> u32 {
    match phase {
        Phase::Idle => 0,
        Phase::Waiting => 1,
        Phase::Started => 2,
    }
}

fn phase_of(word: u32) -> Phase {
    match word {
        0 => Phase::Idle,
        1 => Phase::Waiting,
        _ => Phase::Started,
    }
}
