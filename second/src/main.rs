//! The independent second program of Otravelun: the rules of document 01 written a second time,
//! and the comparisons that hold the product against them.

mod command;
mod compare;
mod generate;
mod mistakes;
mod model;

use std::process::ExitCode;

fn main() -> ExitCode {
    let arguments: Vec<String> = std::env::args().skip(1).collect();
    match command::run(&arguments) {
        true => ExitCode::SUCCESS,
        false => ExitCode::FAILURE,
    }
}
