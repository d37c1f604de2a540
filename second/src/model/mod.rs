//! The rules of document 01, written once more in the plainest way.

pub mod answer;
pub mod executive;
pub mod planner;
pub mod programs;
pub mod range;
pub mod reader;
pub mod refusals;
pub mod rules;
pub mod sampling;
pub mod state;
pub mod state_words;
pub mod tables;
pub mod words;
