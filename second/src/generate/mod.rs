//! Generators of tables, machine files, calls and states, all from one seed.

pub mod calls;
pub mod chance;
pub mod damage;
pub mod files;
pub mod lines;
pub mod shapes;
pub mod states;
pub mod tables;
pub mod ways_out;
