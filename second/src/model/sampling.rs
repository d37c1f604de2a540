//! The sampling rule, worked out from dispatch ticks and deadlines alone.

use super::tables::{Connection, Tables};

/// The words each task has delivered, by task and job number.
pub type Delivered = Vec<Vec<u32>>;

/// The word the rule names for a job of the row's receiver dispatched at tick `r`. Ticks are
/// counted from the start without end, and job k of a task is dispatched at k periods. An error
/// says that the job named has delivered nothing yet.
pub fn word_named(
    tables: &Tables,
    delivered: &Delivered,
    row: &Connection,
    r: u64,
) -> Result<u32, String> {
    let Some(job) = job_named(tables, row, r) else {
        return Ok(0);
    };
    let word = delivered[row.sender].get(job).copied();
    word.ok_or_else(|| format!("job {job} of task {} has delivered nothing", row.sender))
}

/// Delayed: the sender's last job whose dispatch plus deadline is at most `r`, if any. Undelayed:
/// the sender's last job dispatched at or before `r`.
fn job_named(tables: &Tables, row: &Connection, r: u64) -> Option<usize> {
    let sender = tables.tasks[row.sender];
    let after_dispatch = if row.is_undelayed() {
        0
    } else {
        sender.deadline
    };
    let counts = |job: &usize| {
        let dispatch = *job as u64 * u64::from(sender.period);
        dispatch + u64::from(after_dispatch) <= r
    };
    (0..).take_while(counts).last()
}
