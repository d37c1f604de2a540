//! The comparison with the C library, built only where the library is linked.

use super::board_cases;
use super::pair::{Board, ModelBoard, Pair};
use super::report::Tally;
use crate::model::rules::RIGHT;

extern "C" {
    fn otravelun_read(
        file: *const u8,
        file_bytes: usize,
        tasks: *mut u16,
        task_words: usize,
        connections: *mut u16,
        connection_words: usize,
    ) -> u64;
    fn otravelun_plan(
        tasks: *const u16,
        task_words: usize,
        connections: *const u16,
        connection_words: usize,
        plan: *mut u32,
        plan_words: usize,
    ) -> u64;
    fn otravelun_fresh(
        tasks: *const u16,
        task_words: usize,
        connections: *const u16,
        connection_words: usize,
        state: *mut u32,
        state_words: usize,
    ) -> u64;
    fn otravelun_tick(state: *mut u32, state_words: usize) -> u64;
    fn otravelun_complete(state: *mut u32, state_words: usize, word: u32) -> u64;
}

/// The library. Each call lends slices that do not overlap, by pointer and length.
struct Library;

impl Board for Library {
    fn read(&self, file: &[u8], tasks: &mut [u16], connections: &mut [u16]) -> u64 {
        unsafe {
            otravelun_read(
                file.as_ptr(),
                file.len(),
                tasks.as_mut_ptr(),
                tasks.len(),
                connections.as_mut_ptr(),
                connections.len(),
            )
        }
    }

    fn plan(&self, tasks: &[u16], connections: &[u16], plan: &mut [u32]) -> u64 {
        unsafe {
            otravelun_plan(
                tasks.as_ptr(),
                tasks.len(),
                connections.as_ptr(),
                connections.len(),
                plan.as_mut_ptr(),
                plan.len(),
            )
        }
    }

    fn fresh(&self, tasks: &[u16], connections: &[u16], state: &mut [u32]) -> u64 {
        unsafe {
            otravelun_fresh(
                tasks.as_ptr(),
                tasks.len(),
                connections.as_ptr(),
                connections.len(),
                state.as_mut_ptr(),
                state.len(),
            )
        }
    }

    fn tick(&self, state: &mut [u32]) -> u64 {
        unsafe { otravelun_tick(state.as_mut_ptr(), state.len()) }
    }

    fn complete(&self, state: &mut [u32], word: u32) -> u64 {
        unsafe { otravelun_complete(state.as_mut_ptr(), state.len(), word) }
    }
}

/// `compare board`
pub fn compare(cases: u64, seed: u64) -> bool {
    let right = ModelBoard(&RIGHT);
    let pair = Pair::new(&right, &Library);
    let mut tally = Tally::default();
    let every_way_out = board_cases::every_way_out(&pair, seed);
    tally.count("every way out of range", every_way_out);
    for number in 0..cases {
        let (name, outcome) = board_cases::generated(&pair, seed, number);
        tally.count(&name, outcome);
    }
    pair.coverage.borrow().print();
    tally.end()
}
