//! Inputs for the text program: plans that a registry might type, the same spoilt, plans near the limits, and noise.

mod plans;
mod spoilt;

use crate::rng::Rng;

/// Input `number` of a seed.
pub fn input(seed: u64, number: u64) -> Vec<u8> {
    let mut rng = Rng::new(seed.wrapping_mul(1_000_003).wrapping_add(number));
    match rng.below(16) {
        0 => spoilt::noise(&mut rng),
        1 => plans::large(&mut rng),
        2 => {
            let large = plans::large(&mut rng);
            spoilt::spoil(&mut rng, large)
        }
        3..=8 => plans::small(&mut rng),
        _ => {
            let small = plans::small(&mut rng);
            spoilt::spoil(&mut rng, small)
        }
    }
}
