//! Stores that no calls could have left. Usage: garbage [CALLS [SEED]]
//!
//! Every call must end with a known code, and a refusal from 1 to 11 must change nothing.

use beside::arguments::numbers;
use beside::garbage::run;
use beside::watch::watch;
use std::process::ExitCode;

fn main() -> ExitCode {
    let [calls, seed] = numbers([200_000, 1]);
    watch();
    match run(calls, seed) {
        Ok(codes) => {
            println!("{calls} calls of seed {seed} on garbage, each ended with a known code");
            codes.print();
            ExitCode::SUCCESS
        }
        Err(difference) => {
            println!("garbage of seed {seed}: {}", difference.0);
            ExitCode::FAILURE
        }
    }
}
