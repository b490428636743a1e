//! Random histories on the given Rust and on the rules. Usage: differ [HISTORIES [SEED]]
//!
//! Stops at the first difference that the known deviations don't explain.

use compare::histories::{run, Tally};
use std::process::ExitCode;

const HISTORIES: u64 = 20_000;

fn main() -> ExitCode {
    let mut numbers = std::env::args().skip(1).map(|word| word.parse::<u64>());
    let mut argument = |default: u64| {
        numbers
            .next()
            .map_or(default, |word| word.expect("a number"))
    };
    let (histories, seed) = (argument(HISTORIES), argument(1));
    let mut tally = Tally::default();
    for number in 0..histories {
        if let Err(mismatch) = run(seed, number, &mut tally) {
            println!("history {number} of seed {seed}: {}", mismatch.0);
            return ExitCode::FAILURE;
        }
    }
    println!("{histories} histories of seed {seed}, no unknown difference\n{tally:#?}");
    ExitCode::SUCCESS
}
