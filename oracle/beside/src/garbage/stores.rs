//! Good stores, and what becomes of them.

use super::calls::{any, entries};
use crate::difference::Difference;
use crate::lent::{Lent, Word};
use crate::library::Library;
use compare::random::{Setting, Shape};
use compare::rng::Rng;
use compare::workloads::{layered, ranked};
use rules::{Call, Load};
use std::ops::BitXor;

/// A store after a load and some puts and retractions, its slices longer than they need be.
pub fn good_store(rng: &mut Rng) -> Result<Library, Difference> {
    let mut library = Library::longer(std::array::from_fn(|_| rng.below(4)));
    if rng.once_in(4) {
        let seed = rng.below(1_000) as u64;
        let workload = if rng.once_in(2) {
            layered(seed)
        } else {
            ranked(seed)
        };
        let _ = library.call(&Call::Load(workload.load))?;
        for (owner, route) in workload.routes.into_iter().enumerate() {
            let _ = library.call(&Call::Put(owner as u32, route))?;
        }
    } else {
        let shape = [Shape::Tiny, Shape::Small, Shape::Wide][rng.below(3)];
        let load = Setting::new(rng, shape).load;
        let _ = library.call(&Call::Load(load.clone()))?;
        for _ in 0..rng.below(8) {
            let _ = library.call(&step(rng, &load))?;
        }
    }
    Ok(library)
}

fn step(rng: &mut Rng, load: &Load) -> Call {
    let owner = rng.below(load.owners as usize) as u32;
    if rng.once_in(4) {
        return Call::Retract(owner);
    }
    let length = rng.below(5);
    Call::Put(owner, entries(rng, load.jobs as usize + 1, length))
}

/// One of the good stores, or what no calls could have left.
pub fn spoil(rng: &mut Rng, good: &[Library; 2]) -> Library {
    let which = rng.below(2);
    let mut library = good[which].clone();
    match rng.below(8) {
        0 => {}
        1 => mix(rng, &mut library, &good[1 - which]),
        2 => random_words(rng, &mut library),
        3 => stretch(rng, &mut library),
        _ => flips(rng, &mut library),
    }
    library
}

/// Some slices of another store.
fn mix(rng: &mut Rng, library: &mut Library, other: &Library) {
    if rng.once_in(2) {
        library.base = other.base.clone();
    }
    if rng.once_in(2) {
        library.spans = other.spans.clone();
    }
    if rng.once_in(2) {
        library.edges = other.edges.clone();
    }
    if rng.once_in(2) {
        library.routes = other.routes.clone();
    }
    if rng.once_in(2) {
        library.times = other.times.clone();
    }
}

/// Any words in every slice, mostly behind a header that fits.
fn random_words(rng: &mut Rng, library: &mut Library) {
    fill(rng, library.base.slice_mut());
    fill(rng, library.spans.slice_mut());
    fill(rng, library.edges.slice_mut());
    fill(rng, library.routes.slice_mut());
    fill(rng, library.times.slice_mut());
    if !rng.once_in(8) {
        let header = [
            1,
            rng.below(513) as u32,
            rng.below(65) as u32,
            rng.below(3_073) as u32,
        ];
        library.base.slice_mut()[..4].copy_from_slice(&header);
    }
}

/// Any words in one stretch of a slice.
fn stretch(rng: &mut Rng, library: &mut Library) {
    match rng.below(5) {
        0 => fill_some(rng, library.base.slice_mut()),
        1 => fill_some(rng, library.times.slice_mut()),
        2 => fill_some(rng, library.routes.slice_mut()),
        _ => fill_some(rng, library.edges.slice_mut()),
    }
}

fn fill_some<T: Word>(rng: &mut Rng, words: &mut [T]) {
    let begin = rng.below(words.len());
    let length = rng.below(64).min(words.len() - begin);
    fill(rng, &mut words[begin..][..length]);
}

/// Numbers of one size: small ones look like jobs and offsets.
fn fill<T: Word>(rng: &mut Rng, words: &mut [T]) {
    let mask = [0, 1, 7, 0x1FF, 0xFFF, 0x1FFF, u64::MAX][rng.below(7)];
    for word in words {
        *word = T::of(any(rng) & mask);
    }
}

/// Bits of a few words turned.
fn flips(rng: &mut Rng, library: &mut Library) {
    for _ in 0..1 + rng.below(12) {
        match rng.below(10) {
            0 | 1 => flip(rng, &mut library.base),
            2 => flip(rng, &mut library.spans),
            3 => flip(rng, &mut library.times),
            4..=6 => flip(rng, &mut library.routes),
            _ => flip(rng, &mut library.edges),
        }
    }
}

/// The first words of a slice matter most.
fn flip<T: Word + BitXor<Output = T>>(rng: &mut Rng, lent: &mut Lent<T>) {
    let words = lent.slice_mut();
    let place = match rng.below(3) {
        0 => rng.below(6),
        1 => rng.below(70),
        _ => rng.below(words.len()),
    };
    let bits = if rng.once_in(3) { 64 } else { 10 };
    let bit = rng.below(bits);
    words[place] = words[place] ^ T::of(1 << bit);
}
