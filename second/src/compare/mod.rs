//! The comparisons and their reports.

pub mod bench;
#[cfg(board)]
pub mod board;
pub mod board_cases;
pub mod course;
pub mod own;
pub mod pair;
pub mod power;
pub mod processes;
pub mod program_cases;
pub mod programs;
pub mod report;
pub mod show;
