//! `speed [ROUNDS]`: times the proved library beside the reference, plain Rust, on the same inputs.
//!
//! Both sides get the same lent buffers, cleared before each call outside of the time, and clear their own buffers
//! within it. After each call the answers and every byte and number of the buffers are compared. The two sides take
//! turns, and the least time of all rounds counts. Instructions are counted by callgrind, where it is installed, in
//! a run of this program with `--count`. What is printed is Markdown; exit status 1 where two answers differ.

mod files;
mod hostile;
mod instructions;
mod lists;
mod measured;
mod report;
mod row;
mod tables;
mod timing;

use std::env;
use std::process::ExitCode;

/// How often each call is timed.
const ROUNDS: usize = 101;

fn main() -> ExitCode {
    let argument = env::args().nth(1);
    let tables = tables::tables();
    if argument.as_deref() == Some(instructions::COUNT) {
        instructions::run_each_once(tables);
        return ExitCode::SUCCESS;
    }
    let rounds = match argument.map(|argument| argument.parse()) {
        None => ROUNDS,
        Some(Ok(rounds)) if rounds > 0 => rounds,
        Some(_) => {
            eprintln!("usage: speed [ROUNDS]");
            return ExitCode::from(2);
        }
    };
    match report::print(tables, rounds) {
        Ok(()) => ExitCode::SUCCESS,
        Err(difference) => {
            println!("DIFFERENCE: {difference}");
            ExitCode::FAILURE
        }
    }
}
