//! The speed table: the given Rust, and beside it any other engine, on the same inputs.

mod clock;
mod engine;
mod given_rust;
mod measure;
mod puts;
mod rows;

pub use engine::Engine;
pub use given_rust::GivenRust;
pub use rows::Work;

/// Prints the rows that hold `wanted` in their name and that the last engine has an answer for.
/// The first engine is the one that the others are compared with.
pub fn print_table(engines: &mut [Box<dyn Engine>], wanted: &str) {
    measure::print_head(engines);
    for row in rows::rows() {
        let has = engines.last().is_some_and(|engine| engine.has(&row.work));
        if has && row.name.contains(wanted) {
            let medians = measure::medians(engines, &row);
            measure::print_row(&row, &medians);
        }
    }
}
