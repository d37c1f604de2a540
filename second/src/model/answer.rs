//! Answers, refusals and calls.

/// A refusal: its number in 01's list and its place.
#[derive(Clone, Copy, Debug, PartialEq, Eq)]
pub struct Refusal {
    pub number: usize,
    pub place: usize,
}

impl Refusal {
    pub fn new(number: usize, place: usize) -> Refusal {
        Refusal { number, place }
    }
}

#[derive(Clone, Copy, Debug, PartialEq, Eq)]
pub enum Answer {
    Refused(Refusal),
    Running(usize),
    Idle,
    Missed(usize),
    /// The planner's answer to tables it takes.
    Accepted,
    /// The reader's answer: how many tasks and connections it read.
    Read {
        tasks: usize,
        connections: usize,
    },
}

impl Answer {
    pub fn refused(number: usize, place: usize) -> Answer {
        Answer::Refused(Refusal::new(number, place))
    }

    /// The answer as one word: kind + 256 x number + 65,536 x value.
    pub fn word(self) -> u64 {
        let (kind, number, value) = match self {
            Answer::Refused(refusal) => (0, refusal.number, refusal.place),
            Answer::Running(task) => (1, 0, task),
            Answer::Idle => (2, 0, 0),
            Answer::Missed(task) => (3, 0, task),
            Answer::Accepted => (4, 0, 0),
            Answer::Read { tasks, connections } => (5, tasks, connections),
        };
        kind + 256 * number as u64 + 65_536 * value as u64
    }

    /// The answer as the programs print it.
    pub fn text(self) -> String {
        match self {
            Answer::Refused(refusal) => format!("refused {} {}", refusal.number, refusal.place),
            Answer::Running(task) => format!("running {task}"),
            Answer::Idle => "idle".to_string(),
            Answer::Missed(task) => format!("missed {task}"),
            Answer::Accepted => "accepted".to_string(),
            Answer::Read { tasks, connections } => format!("read {tasks} {connections}"),
        }
    }
}

/// A call of the executive.
#[derive(Clone, Copy, Debug, PartialEq, Eq)]
pub enum Call {
    Tick,
    Complete(u32),
}

impl Call {
    /// The call as a line of the step program.
    pub fn text(self) -> String {
        match self {
            Call::Tick => "t".to_string(),
            Call::Complete(word) => format!("c {word}"),
        }
    }
}
