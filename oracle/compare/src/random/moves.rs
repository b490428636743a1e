//! Random moves, good and bad.

use crate::rng::Rng;
use rules::Move;

/// A move with good positions three times in four, else with any near the route.
pub fn a_move(rng: &mut Rng, length: usize) -> Move {
    if rng.once_in(4) {
        any_move(rng, length)
    } else {
        good_move(rng, length)
    }
}

fn any_move(rng: &mut Rng, length: usize) -> Move {
    let mut place = || match rng.below(30) {
        0 => u32::MAX,
        _ => rng.below(length + 2) as u32,
    };
    let (a, b, c, d) = (place(), place(), place(), place());
    match rng.below(4) {
        0 => Move::ListChange { source: a, dest: b },
        1 => Move::SublistChange {
            start: a,
            end: b,
            dest: c,
        },
        2 => Move::SublistSwap {
            first: (a, b),
            second: (c, d),
        },
        _ => Move::Permutation {
            start: a.min(b),
            end: a.max(b),
            list: window_list(rng, a.abs_diff(b).min(2_000)),
        },
    }
}

fn good_move(rng: &mut Rng, length: usize) -> Move {
    let mut places: [u32; 4] = std::array::from_fn(|_| rng.below(length + 1) as u32);
    places.sort();
    let [start, end, third, fourth] = places;
    let window = end - start;
    match rng.below(4) {
        0 if length > 0 => Move::ListChange {
            source: rng.below(length) as u32,
            dest: rng.below(length + 1) as u32,
        },
        1 => Move::SublistSwap {
            first: (start, end),
            second: (third, fourth),
        },
        2 => Move::SublistSwap {
            first: (third, fourth),
            second: (start, end),
        },
        3 => Move::Permutation {
            start,
            end,
            list: window_list(rng, window),
        },
        _ => Move::SublistChange {
            start,
            end,
            dest: rng.below(length + 1 - window as usize) as u32,
        },
    }
}

/// A permutation, now and then spoilt.
fn window_list(rng: &mut Rng, window: u32) -> Vec<u32> {
    let mut list: Vec<u32> = (0..window).collect();
    rng.shuffle(&mut list);
    if rng.once_in(12) && !list.is_empty() {
        let place = rng.below(list.len());
        list[place] = rng.below(list.len() + 1) as u32;
    }
    if rng.once_in(20) {
        list.push(window);
    }
    list
}
