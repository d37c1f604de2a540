//! The state of the executive.

use super::tables::{Connection, Task, MOST_CONNECTIONS, MOST_TASKS};

#[derive(Clone, Copy, Debug, PartialEq, Eq)]
pub enum Phase {
    Idle,
    Waiting,
    Started,
}

/// A state holds room for 32 tasks and 64 connections, also past its counts.
#[derive(Clone, Debug, PartialEq, Eq)]
pub struct State {
    pub task_count: usize,
    pub connection_count: usize,
    pub multiple: u32,
    pub cycle: u32,
    /// False until the first tick of all.
    pub ticked: bool,
    pub halted: bool,
    pub tasks: [Task; MOST_TASKS],
    pub connections: [Connection; MOST_CONNECTIONS],
    /// Task numbers, highest priority first.
    pub order: [usize; MOST_TASKS],
    pub phases: [Phase; MOST_TASKS],
    pub outputs: [u32; MOST_TASKS],
    /// The cycle of each task's latest dispatch.
    pub dispatched: [u32; MOST_TASKS],
    pub buffers: [u32; MOST_CONNECTIONS],
    pub inputs: [u32; MOST_CONNECTIONS],
}

impl State {
    /// All zeros, all idle, no tick yet, not halted.
    pub fn zeros() -> State {
        State {
            task_count: 0,
            connection_count: 0,
            multiple: 0,
            cycle: 0,
            ticked: false,
            halted: false,
            tasks: [Task::default(); MOST_TASKS],
            connections: [Connection::default(); MOST_CONNECTIONS],
            order: [0; MOST_TASKS],
            phases: [Phase::Idle; MOST_TASKS],
            outputs: [0; MOST_TASKS],
            dispatched: [0; MOST_TASKS],
            buffers: [0; MOST_CONNECTIONS],
            inputs: [0; MOST_CONNECTIONS],
        }
    }

    /// The connections within the count.
    pub fn rows(&self) -> &[Connection] {
        &self.connections[..self.connection_count]
    }
}
