//! The given Rust over histories: the rules with A, B and C, and nothing else.

use compare::histories::{history, run, Tally};
use compare::random::Shape;
use compare::rng::Rng;

#[test]
fn no_unknown_difference() {
    let mut tally = Tally::default();
    for number in 0..8_000 {
        if let Err(mismatch) = run(7, number, &mut tally) {
            panic!("history {number}: {}", mismatch.0);
        }
    }
    // Everything that can come up has come up.
    for count in [
        tally.skipped,
        tally.full,
        tally.cycle_found,
        tally.incremental,
        tally.moves_quick,
        tally.blocks,
        tally.refused,
        tally.struck_a,
        tally.struck_b,
        tally.struck_c,
    ] {
        assert!(count >= 50, "{tally:#?}");
    }
}

#[test]
fn no_unknown_difference_at_full_size() {
    let mut tally = Tally::default();
    for seed in 0..12 {
        if let Err(mismatch) = history(&mut Rng::new(seed), Shape::Large, &mut tally) {
            panic!("seed {seed}: {}", mismatch.0);
        }
    }
    assert!(
        tally.incremental > 20 && tally.cycle_found > 5,
        "{tally:#?}"
    );
}
