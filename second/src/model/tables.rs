//! The two tables and their sizes.

pub const MOST_TASKS: usize = 32;
pub const MOST_CONNECTIONS: usize = 64;
pub const TASK_WORDS: usize = 5;
pub const CONNECTION_WORDS: usize = 3;
pub const LONGEST_PERIOD: u32 = 10_000;
pub const GREATEST_CRITICALITY: u32 = 255;
pub const GREATEST_MULTIPLE: u32 = 720_720;

pub const DELAYED: u32 = 0;
pub const UNDELAYED: u32 = 1;

#[derive(Clone, Copy, Debug, Default, PartialEq, Eq)]
pub struct Task {
    pub period: u32,
    pub deadline: u32,
    pub compute: u32,
    pub criticality: u32,
    pub flag: u32,
}

#[derive(Clone, Copy, Debug, Default, PartialEq, Eq)]
pub struct Connection {
    pub sender: usize,
    pub receiver: usize,
    pub kind: u32,
}

impl Connection {
    pub fn is_undelayed(&self) -> bool {
        self.kind == UNDELAYED
    }
}

#[derive(Clone, Debug, Default, PartialEq, Eq)]
pub struct Tables {
    pub tasks: Vec<Task>,
    pub connections: Vec<Connection>,
}

impl Tables {
    /// Takes the words as whole rows; words of an unfinished last row are left out, since
    /// refusals 1 and 2 turn such tables away.
    pub fn from_words(task_words: &[u16], connection_words: &[u16]) -> Tables {
        let task = |row: &[u16]| Task {
            period: row[0].into(),
            deadline: row[1].into(),
            compute: row[2].into(),
            criticality: row[3].into(),
            flag: row[4].into(),
        };
        let connection = |row: &[u16]| Connection {
            sender: row[0].into(),
            receiver: row[1].into(),
            kind: row[2].into(),
        };
        Tables {
            tasks: task_words.chunks_exact(TASK_WORDS).map(task).collect(),
            connections: connection_words
                .chunks_exact(CONNECTION_WORDS)
                .map(connection)
                .collect(),
        }
    }

    pub fn to_words(&self) -> TableWords {
        let mut words = TableWords::default();
        for task in &self.tasks {
            let row = [
                task.period,
                task.deadline,
                task.compute,
                task.criticality,
                task.flag,
            ];
            words.tasks.extend(row.map(|value| value as u16));
        }
        for row in &self.connections {
            let row = [row.sender as u16, row.receiver as u16, row.kind as u16];
            words.connections.extend(row);
        }
        words
    }

    /// The receivers of a task's undelayed connections.
    pub fn undelayed_receivers(&self, sender: usize) -> Vec<usize> {
        self.connections
            .iter()
            .filter(|row| row.sender == sender && row.is_undelayed())
            .map(|row| row.receiver)
            .collect()
    }
}

/// Both tables as they are lent: runs of 16-bit words of any length.
#[derive(Clone, Debug, Default, PartialEq, Eq)]
pub struct TableWords {
    pub tasks: Vec<u16>,
    pub connections: Vec<u16>,
}
