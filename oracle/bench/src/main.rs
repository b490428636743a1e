//! The given Rust alone. Usage: bench [PART-OF-A-ROW'S-NAME]

use bench::{print_table, Engine, GivenRust};

fn main() {
    let wanted = std::env::args().nth(1).unwrap_or_default();
    let mut engines: Vec<Box<dyn Engine>> = vec![Box::new(GivenRust::default())];
    print_table(&mut engines, &wanted);
}
