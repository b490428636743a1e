//! Document 01's text program on standard input. Usage: program [--given]
//!
//! It answers by the rules, or with `--given` by the given Rust behind our refusals.

use compare::desk::{Desk, GivenDesk};
use compare::program::run;
use rules::Store;
use std::io::Read;

fn main() {
    let mut input = Vec::new();
    std::io::stdin().read_to_end(&mut input).expect("input");
    let mut desk: Box<dyn Desk> = if std::env::args().any(|word| word == "--given") {
        Box::new(GivenDesk::default())
    } else {
        Box::new(Store::default())
    };
    print!("{}", run(&input, desk.as_mut()));
}
