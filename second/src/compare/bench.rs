//! 01's numbers from the bench as stored expectations.

use super::report::{Difference, Outcome};
use crate::model::answer::{Answer, Call};
use crate::model::planner::Plan;
use crate::model::rules::RIGHT;
use crate::model::state::State;
use crate::model::tables::{Connection, TableWords, Tables, Task, DELAYED, UNDELAYED};

/// The cases by name.
pub fn cases() -> Vec<(&'static str, Outcome)> {
    let mut cases = plan_cases();
    cases.extend([
        ("M5 order", m5()),
        ("M7 criticalities", m7()),
        ("M8 multiple", m8()),
        ("M10", m10()),
        ("M11", m11()),
        ("M12", m12()),
        ("session", session()),
        ("session, task 2 still waiting at tick 5", session_waiting()),
        ("session as a list", session_list()),
        ("session in steps", session_steps()),
        ("short files", short_files()),
    ]);
    cases
}

/// A task with the bench's values where they are left out.
fn task(period: u32) -> Task {
    Task {
        period,
        deadline: period,
        compute: 1,
        criticality: 0,
        flag: 0,
    }
}

fn row(sender: usize, receiver: usize, kind: u32) -> Connection {
    Connection {
        sender,
        receiver,
        kind,
    }
}

fn tables(tasks: &[Task], connections: &[Connection]) -> TableWords {
    let tables = Tables {
        tasks: tasks.to_vec(),
        connections: connections.to_vec(),
    };
    tables.to_words()
}

fn plan(words: &TableWords) -> (Answer, Plan) {
    RIGHT.plan(&words.tasks, &words.connections)
}

fn fresh(words: &TableWords) -> State {
    RIGHT.fresh_start(&words.tasks, &words.connections).1
}

fn same<T: PartialEq + std::fmt::Debug>(what: &str, got: T, wanted: T) -> Outcome {
    if got == wanted {
        return Ok(());
    }
    let what = format!("{what} should be {wanted:?}, is {got:?}");
    Err(Difference::new(what))
}

/// What the planner answers to M1 to M9 and to the ends of the period.
fn plan_cases() -> Vec<(&'static str, Outcome)> {
    let (four, six, ten) = (task(4), task(6), task(10));
    let accepted = Answer::Accepted;
    let refused = Answer::refused;
    let (delayed, undelayed) = (row(0, 1, DELAYED), row(0, 1, UNDELAYED));
    let cases: Vec<(&str, Vec<Task>, Vec<Connection>, Answer)> = vec![
        ("M1", vec![four, six], vec![undelayed], refused(5, 0)),
        ("M2", vec![four, six], vec![delayed], accepted),
        ("M3", vec![ten], vec![row(0, 0, UNDELAYED)], refused(6, 0)),
        ("M4", vec![ten], vec![row(0, 0, DELAYED)], accepted),
        ("M5", vec![ten, ten], vec![row(1, 0, UNDELAYED)], accepted),
        ("M6", critical_pair(0), vec![undelayed], refused(7, 0)),
        ("M7", critical_pair(1), vec![undelayed], accepted),
        ("M8", vec![task(5_040), task(143)], vec![], accepted),
        ("M9", vec![task(1_000), task(721)], vec![], refused(8, 0)),
        ("period 10,000", vec![task(10_000)], vec![], accepted),
        ("period 10,001", vec![task(10_001)], vec![], refused(3, 0)),
    ];
    let judged = |(name, tasks, rows, wanted): (_, Vec<Task>, Vec<Connection>, Answer)| {
        let (answer, _) = plan(&tables(&tasks, &rows));
        (name, same("the answer", answer, wanted))
    };
    cases.into_iter().map(judged).collect()
}

/// M6 and M7: a sender of criticality 3 and a receiver of criticality 1.
fn critical_pair(flag: u32) -> Vec<Task> {
    let sender = Task {
        criticality: 3,
        flag,
        ..task(10)
    };
    let receiver = Task {
        criticality: 1,
        ..task(10)
    };
    vec![sender, receiver]
}

fn m5() -> Outcome {
    let (_, plan) = plan(&tables(&[task(10), task(10)], &[row(1, 0, UNDELAYED)]));
    same("internal deadlines", &plan.deadlines[..2], &[640, 639])?;
    same("the order", &plan.order[..2], &[1, 0])
}

fn m7() -> Outcome {
    let (_, plan) = plan(&tables(&critical_pair(1), &[row(0, 1, UNDELAYED)]));
    same("internal criticalities", &plan.criticalities[..2], &[1, 1])
}

fn m8() -> Outcome {
    let (_, plan) = plan(&tables(&[task(5_040), task(143)], &[]));
    same("the common multiple", plan.multiple, 720_720)
}

/// Makes the calls, holding each answer against the one stored.
fn follow(state: &mut State, calls: &[(Call, Answer)]) -> Outcome {
    for (number, (call, wanted)) in calls.iter().enumerate() {
        let (answer, after) = RIGHT.call(state, *call);
        same(
            &format!("answer {number} to {}", call.text()),
            answer,
            *wanted,
        )?;
        *state = after;
    }
    Ok(())
}

/// Ticks some times, completing all jobs after each with 100 x task + tick.
fn tick_and_complete(state: &mut State, ticks: std::ops::Range<u32>) {
    for tick in ticks {
        let (mut answer, mut after) = RIGHT.tick(state);
        while let Answer::Running(task) = answer {
            (answer, after) = RIGHT.complete(&after, 100 * (1 + task as u32) + tick);
        }
        *state = after;
    }
}

fn delayed_pair(deadline: u32) -> State {
    let sender = Task {
        deadline,
        ..task(10)
    };
    fresh(&tables(&[sender, task(5)], &[row(0, 1, DELAYED)]))
}

fn m10() -> Outcome {
    let mut state = delayed_pair(5);
    tick_and_complete(&mut state, 0..5);
    same("read at tick 0", state.inputs[0], 0)?;
    tick_and_complete(&mut state, 5..6);
    same("read at tick 5", state.inputs[0], 100)
}

fn m11() -> Outcome {
    let mut state = delayed_pair(6);
    tick_and_complete(&mut state, 0..6);
    same("read at tick 5", state.inputs[0], 0)?;
    tick_and_complete(&mut state, 6..11);
    same("read at tick 10", state.inputs[0], 100)
}

fn m12() -> Outcome {
    let mut state = fresh(&tables(&[task(10)], &[]));
    same(
        "falling at the first tick",
        RIGHT.deadline_falls(&state, 0),
        false,
    )?;
    for tick in 0..10 {
        let (answer, after) = RIGHT.tick(&state);
        same(
            &format!("the answer to tick {tick}"),
            answer,
            Answer::Running(0),
        )?;
        state = after;
    }
    same("falling at tick 10", RIGHT.deadline_falls(&state, 0), true)?;
    same(
        "the answer to tick 10",
        RIGHT.tick(&state).0,
        Answer::Missed(0),
    )
}

fn session_tables() -> TableWords {
    let of = |period, compute| Task {
        compute,
        criticality: 1,
        ..task(period)
    };
    let rows = [
        row(0, 1, UNDELAYED),
        row(0, 2, UNDELAYED),
        row(1, 2, UNDELAYED),
    ];
    tables(&[of(5, 1), of(20, 3), of(10, 2)], &rows)
}

const TICK_IDLE: (Call, Answer) = (Call::Tick, Answer::Idle);

fn tick_runs(task: usize) -> (Call, Answer) {
    (Call::Tick, Answer::Running(task))
}

fn completion_runs(word: u32, task: usize) -> (Call, Answer) {
    (Call::Complete(word), Answer::Running(task))
}

fn completion_idle(word: u32) -> (Call, Answer) {
    (Call::Complete(word), Answer::Idle)
}

fn session() -> Outcome {
    let mut state = fresh(&session_tables());
    let first = [tick_runs(0), completion_runs(11, 1), completion_runs(21, 2)];
    follow(&mut state, &first)?;
    same("words of task 2", &state.inputs[1..3], &[11, 21])?;
    follow(&mut state, &[completion_idle(31)])?;
    follow(&mut state, &[TICK_IDLE; 4])?;
    follow(&mut state, &[tick_runs(0)])?;
    let buffers = state.buffers;
    follow(&mut state, &[completion_idle(12)])?;
    same("buffers after tick 5", &state.buffers[..], &buffers[..])?;
    follow(&mut state, &[TICK_IDLE; 4])?;
    follow(&mut state, &[tick_runs(0), completion_runs(13, 2)])?;
    same("words of task 2", &state.inputs[1..3], &[13, 21])
}

/// The third slip: the word of tick 5 is not for a job dispatched at tick 0.
fn session_waiting() -> Outcome {
    let mut state = fresh(&session_tables());
    follow(&mut state, &[tick_runs(0), completion_runs(11, 1)])?;
    follow(&mut state, &[tick_runs(1); 4])?;
    let rest = [tick_runs(0), completion_runs(12, 1), completion_runs(21, 2)];
    follow(&mut state, &rest)?;
    same("words of task 2", &state.inputs[1..3], &[11, 21])
}

/// The session's machine file.
pub const SESSION: &[u8] = b"TK\x05\0\x05\0\x01\0\x01\0TK\x14\0\x14\0\x03\0\x01\0\
TK\x0a\0\x0a\0\x02\0\x01\0CN\0\x01\x01CN\0\x02\x01CN\x01\x02\x01EN";

fn session_list() -> Outcome {
    let wanted = "place task deadline criticality\n1 0 320 1\n2 1 639 1\n3 2 640 1\n";
    same("the list", RIGHT.list(SESSION), wanted.to_string())
}

fn session_steps() -> Outcome {
    let calls = b"t\nc 11\nc 21\nc 31\nc 1\nx\nt\nt\nt\nt\nt\nt\nt\nt\nt\nt\nt";
    let wanted = "running 0\nrunning 1\nrunning 2\nidle\nrefused 14 0\nbad line\n\
                  idle\nidle\nidle\nidle\nrunning 0\nrunning 0\nrunning 0\nrunning 0\nrunning 0\n\
                  missed 0\nrefused 15 0\n";
    same("the output", RIGHT.step(SESSION, calls), wanted.to_string())
}

fn short_files() -> Outcome {
    let read = |file: &[u8]| RIGHT.read(file, &mut [0; 160], &mut [0; 192]);
    same("an empty file", read(b""), Answer::refused(13, 0))?;
    same("one byte", read(b"E"), Answer::refused(11, 0))?;
    let nothing = Answer::Read {
        tasks: 0,
        connections: 0,
    };
    same("EN alone", read(b"EN"), nothing)?;
    same("EN planned", RIGHT.plan(&[], &[]).0, Answer::refused(1, 0))
}
