//! Random histories on the library and on the rules. Usage: differ [HISTORIES [SEED]]
//!
//! Stops at the first difference, and prints all calls that led to it.

use beside::arguments::numbers;
use beside::histories::run;
use beside::tally::Tally;
use beside::watch::{begins, watch};
use std::process::ExitCode;

fn main() -> ExitCode {
    let [histories, seed] = numbers([20_000, 1]);
    let mut tally = Tally::default();
    watch();
    for number in 0..histories {
        begins(number);
        if let Err(difference) = run(seed, number, &mut tally) {
            println!("history {number} of seed {seed}: {}", difference.0);
            return ExitCode::FAILURE;
        }
    }
    let calls = tally.calls;
    println!("{histories} histories of seed {seed}, {calls} calls, no difference");
    tally.print();
    ExitCode::SUCCESS
}
