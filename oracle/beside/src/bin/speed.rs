//! The speed table: the given Rust and the proved library. Usage: speed [PART-OF-A-ROW'S-NAME]

use bench::{print_table, Engine, GivenRust};
use beside::rattle::Rattle;

fn main() {
    let wanted = std::env::args().nth(1).unwrap_or_default();
    let mut engines: Vec<Box<dyn Engine>> =
        vec![Box::new(GivenRust::default()), Box::new(Rattle::default())];
    print_table(&mut engines, &wanted);
}
