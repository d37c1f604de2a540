//! Generated cases for two boards: files, tables, runs and states from outside.

use super::pair::{Lent, Pair};
use super::report::{Difference, Outcome};
use super::show;
use crate::generate::calls::Habit;
use crate::generate::chance::Chance;
use crate::generate::{files, shapes, states, tables, ways_out};
use crate::model::answer::Call;
use crate::model::rules::RIGHT;
use crate::model::state_words::{state_of, state_words, PLAN_WORDS, STATE_WORDS};

type Case = fn(&Pair, &mut Chance) -> Outcome;

/// The sorts of cases, taken in turn.
const SORTS: [(&str, Case); 8] = [
    ("read", read),
    ("plan", plan),
    ("run", run),
    ("outside", outside),
    ("plan", plan),
    ("run", run),
    ("out of range", out_of_range),
    ("room", room),
];

/// The generated case of a number, with its name.
pub fn generated(pair: &Pair, seed: u64, number: u64) -> (String, Outcome) {
    let (sort, case) = SORTS[(number % SORTS.len() as u64) as usize];
    let mut chance = Chance::of_case(seed, number);
    let name = format!("case {number} of seed {seed} ({sort})");
    (name, case(pair, &mut chance))
}

/// Every single way out of range of some states, both calls on each.
pub fn every_way_out(pair: &Pair, seed: u64) -> Outcome {
    let mut chance = Chance::seeded(seed);
    for _ in 0..4 {
        let state = states::in_range(&mut chance);
        for way in ways_out::sorts(&state).concat() {
            both_calls(pair, way.taken_from(&state))?;
        }
    }
    Ok(())
}

fn read(pair: &Pair, chance: &mut Chance) -> Outcome {
    for _ in 0..10 {
        let file = files::any(chance);
        let tasks = lent_u16(chance, 160);
        let connections = lent_u16(chance, 192);
        pair.read(&file, &tasks, &connections)?;
    }
    Ok(())
}

/// Plan and fresh start of any tables, and both calls on the state that comes of it.
fn plan(pair: &Pair, chance: &mut Chance) -> Outcome {
    for _ in 0..8 {
        let words = tables::any(chance);
        let plan = lent_u32(chance, PLAN_WORDS);
        pair.plan(&words, &plan)?;
        let mut state = lent_u32(chance, STATE_WORDS);
        pair.fresh(&words, &mut state)?;
        pair.call(&mut state.clone(), Call::Tick)?;
        pair.call(&mut state, Call::Complete(1))?;
    }
    Ok(())
}

/// A run from a fresh start: ticks and completions, past the end of the cycle where that is near,
/// refused completions among them, and a few calls after halting.
fn run(pair: &Pair, chance: &mut Chance) -> Outcome {
    let words = shapes::accepted(chance).to_words();
    let mut state = lent_u32(chance, STATE_WORDS);
    pair.fresh(&words, &mut state)?;
    let habit = Habit::any(chance);
    let mut calls = Vec::new();
    let mut after_halt = 0;
    for _ in 0..240 {
        let Some(before) = state_of(&state.words[..STATE_WORDS]) else {
            return Err(Difference::new("the state is none"));
        };
        let call = if habit.completes(chance, &RIGHT, &before) {
            Call::Complete(chance.word())
        } else {
            Call::Tick
        };
        calls.push(call.text());
        pair.call(&mut state, call).map_err(|difference| {
            let calls = format!("calls since the fresh start: {}", calls.join(", "));
            difference.with(show::tables(&words)).with(calls)
        })?;
        after_halt += u32::from(before.halted);
        if after_halt > 4 {
            break;
        }
    }
    Ok(())
}

/// States in range that no run reaches, with both calls on each and a few more in a row.
fn outside(pair: &Pair, chance: &mut Chance) -> Outcome {
    for _ in 0..12 {
        let words = state_words(&states::in_range(chance));
        let mut state = Lent::new(words, chance.word());
        pair.call(&mut state.clone(), Call::Tick)?;
        pair.call(&mut state, Call::Complete(chance.word()))?;
        for _ in 0..4 {
            pair.call(&mut state, any_call(chance))?;
        }
    }
    Ok(())
}

fn out_of_range(pair: &Pair, chance: &mut Chance) -> Outcome {
    for _ in 0..16 {
        let state = states::in_range(chance);
        let sorts = ways_out::sorts(&state);
        let sort = &sorts[chance.index(sorts.len())];
        let way = chance.pick(sort);
        both_calls(pair, way.taken_from(&state))?;
    }
    Ok(())
}

/// Too few words lent, exactly enough, and more than enough.
fn room(pair: &Pair, chance: &mut Chance) -> Outcome {
    let about = |chance: &mut Chance, enough: usize| {
        let few = chance.index(enough);
        chance.pick(&[0, few, enough - 1, enough, enough + 1, enough + 7])
    };
    let file = files::any(chance);
    let task_words = about(chance, 160);
    let connection_words = about(chance, 192);
    let tasks = lent_u16(chance, task_words);
    let connections = lent_u16(chance, connection_words);
    pair.read(&file, &tasks, &connections)?;

    let words = tables::any(chance);
    let plan_words = about(chance, PLAN_WORDS);
    let plan = lent_u32(chance, plan_words);
    pair.plan(&words, &plan)?;
    let fresh_words = about(chance, STATE_WORDS);
    let mut fresh = lent_u32(chance, fresh_words);
    pair.fresh(&words, &mut fresh)?;

    let mut state = state_words(&states::in_range(chance));
    let given_words = about(chance, STATE_WORDS);
    state.resize(given_words, 0x5a5a_5a5a);
    both_calls(pair, state)
}

fn both_calls(pair: &Pair, words: Vec<u32>) -> Outcome {
    let state = Lent::new(words, 0xa5a5_a5a5);
    pair.call(&mut state.clone(), Call::Tick)?;
    pair.call(&mut state.clone(), Call::Complete(7))?;
    Ok(())
}

fn any_call(chance: &mut Chance) -> Call {
    let word = chance.word();
    chance.pick(&[Call::Tick, Call::Complete(word)])
}

/// Words of chance to be lent, so that what stays unchanged shows.
fn lent_u16(chance: &mut Chance, count: usize) -> Lent<u16> {
    let words = (0..count).map(|_| chance.next() as u16).collect();
    Lent::new(words, chance.next() as u16)
}

fn lent_u32(chance: &mut Chance, count: usize) -> Lent<u32> {
    let words = (0..count).map(|_| chance.next() as u32).collect();
    Lent::new(words, chance.next() as u32)
}
