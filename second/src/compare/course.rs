//! Runs of a model's executive, held against the sampling rule call by call.

use super::report::Difference;
use super::show;
use crate::generate::calls::Habit;
use crate::generate::chance::Chance;
use crate::model::answer::{Answer, Call};
use crate::model::rules::Model;
use crate::model::sampling::{word_named, Delivered};
use crate::model::state::{Phase, State};
use crate::model::tables::Tables;
use std::collections::BTreeMap;

/// The words each started job has read, by task and job number, in row order.
pub type Readings = BTreeMap<(usize, usize), Vec<u32>>;

/// A run from a fresh start. Ticks are counted here from the start without end, apart from the
/// cycle the state keeps.
struct Course<'a> {
    model: &'a Model,
    tables: &'a Tables,
    state: State,
    ticks: u64,
    running: Option<usize>,
    readings: Readings,
    delivered: Delivered,
    calls: Vec<String>,
}

/// Runs tables for some calls, or until a deadline is missed.
pub fn run(
    model: &Model,
    tables: &Tables,
    habit: Habit,
    calls: u32,
    chance: &mut Chance,
) -> Result<Readings, Difference> {
    let words = tables.to_words();
    let (answer, state) = model.fresh_start(&words.tasks, &words.connections);
    if answer != Answer::Idle {
        let what = format!("fresh start answers {}", answer.text());
        return Err(Difference::new(what).with(show::tables(&words)));
    }
    let mut course = Course {
        model,
        tables,
        state,
        ticks: 0,
        running: None,
        readings: Readings::new(),
        delivered: vec![Vec::new(); tables.tasks.len()],
        calls: Vec::new(),
    };
    for _ in 0..calls {
        let completes = habit.completes(chance, model, &course.state);
        let goes_on = course.make_call(completes).map_err(|what| {
            let calls = format!("calls since the fresh start: {}", course.calls.join(", "));
            Difference::new(what).with(show::tables(&words)).with(calls)
        })?;
        if !goes_on {
            break;
        }
    }
    Ok(course.readings)
}

impl Course<'_> {
    /// False where a deadline was missed.
    fn make_call(&mut self, completes: bool) -> Result<bool, String> {
        let call = match (completes, self.running) {
            (false, _) => Call::Tick,
            (true, Some(task)) => Call::Complete(self.output(task)),
            (true, None) => Call::Complete(1),
        };
        self.calls.push(call.text());
        let (answer, after) = self.model.call(&self.state, call);
        if call != Call::Tick && self.running.is_none() {
            return self.expect_refused(answer, &after);
        }
        self.state = after;
        match (call, self.running) {
            (Call::Complete(word), Some(task)) => self.delivered[task].push(word),
            _ => self.ticks += 1,
        }
        match answer {
            Answer::Missed(_) => return Ok(false),
            Answer::Idle => self.running = None,
            Answer::Running(task) => self.check_running(task)?,
            _ => return Err(format!("answers {}", answer.text())),
        }
        Ok(true)
    }

    /// A completion while no task runs is refused and changes nothing.
    fn expect_refused(&self, answer: Answer, after: &State) -> Result<bool, String> {
        if answer != Answer::refused(14, 0) {
            return Err(format!("should be refused 14, answers {}", answer.text()));
        }
        if *after != self.state {
            return Err("a refused completion changes the state".to_string());
        }
        Ok(true)
    }

    /// A job's output depends on its task, its number and the words it has read, on nothing else.
    fn output(&self, task: usize) -> u32 {
        let job = self.job(task);
        let mut mixed = Chance::of_case(task as u64, job as u64).next();
        for word in self.readings.get(&(task, job)).into_iter().flatten() {
            mixed = Chance::of_case(mixed, u64::from(*word)).next();
        }
        mixed as u32
    }

    /// The number of a task's latest job: job k is dispatched at tick k x period.
    fn job(&self, task: usize) -> usize {
        (self.latest_tick() / u64::from(self.tables.tasks[task].period)) as usize
    }

    fn latest_tick(&self) -> u64 {
        self.ticks.saturating_sub(1)
    }

    fn check_running(&mut self, task: usize) -> Result<(), String> {
        self.running = Some(task);
        self.check_order_kept(task)?;
        let job = self.job(task);
        let read = self.words_read(task);
        if self.delivered[task].len() != job {
            return Err(format!("job {job} of task {task} runs a second time"));
        }
        match self.readings.get(&(task, job)) {
            None => {
                self.check_sampling(task, job)?;
                self.readings.insert((task, job), read);
            }
            Some(at_start) if *at_start != read => {
                return Err(format!("job {job} of task {task} has its words changed"));
            }
            Some(_) => {}
        }
        Ok(())
    }

    /// While a task runs, no task that sends to it undelayed has an unfinished job.
    fn check_order_kept(&self, task: usize) -> Result<(), String> {
        for row in &self.tables.connections {
            let unfinished = self.state.phases[row.sender] != Phase::Idle;
            if row.is_undelayed() && row.receiver == task && unfinished {
                let sender = row.sender;
                return Err(format!(
                    "task {task} runs before its sender {sender} is done"
                ));
            }
        }
        Ok(())
    }

    fn words_read(&self, task: usize) -> Vec<u32> {
        let rows = self.tables.connections.iter().enumerate();
        let to_task = rows.filter(|(_, row)| row.receiver == task);
        to_task
            .map(|(number, _)| self.state.inputs[number])
            .collect()
    }

    /// Each word a started job has read is the one the sampling rule names.
    fn check_sampling(&self, task: usize, job: usize) -> Result<(), String> {
        let dispatch = job as u64 * u64::from(self.tables.tasks[task].period);
        for (number, row) in self.tables.connections.iter().enumerate() {
            if row.receiver != task {
                continue;
            }
            let named = word_named(self.tables, &self.delivered, row, dispatch)?;
            let read = self.state.inputs[number];
            if read != named {
                return Err(format!(
                    "job {job} of task {task} reads {read} on row {number}, the rule names {named}"
                ));
            }
        }
        Ok(())
    }
}

/// How many started jobs two runs had, and how many of them were started in both.
#[derive(Default)]
pub struct Jobs {
    pub started: usize,
    pub in_both: usize,
}

/// Two runs of one plan with different times: every job started in both reads the same words.
pub fn two_runs(
    model: &Model,
    tables: &Tables,
    calls: u32,
    chance: &mut Chance,
) -> Result<Jobs, Difference> {
    let habits = [Habit::any(chance), Habit::any(chance)];
    let first = run(model, tables, habits[0], calls, chance)?;
    let second = run(model, tables, habits[1], calls, chance)?;
    let mut jobs = Jobs {
        started: first.len() + second.len(),
        in_both: 0,
    };
    for ((task, job), read) in &first {
        let Some(other) = second.get(&(*task, *job)) else {
            continue;
        };
        jobs.in_both += 1;
        if read != other {
            let what =
                format!("job {job} of task {task} reads {read:?} in one run, {other:?} in another");
            return Err(Difference::new(what).with(show::tables(&tables.to_words())));
        }
    }
    Ok(jobs)
}
