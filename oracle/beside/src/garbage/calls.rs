//! Any call with any arguments.

use crate::library::Library;
use compare::random::{a_move, owner_list, Setting, Shape};
use compare::rng::Rng;
use rules::{Call, Load, OWNERS};

/// Any number of 64 bits.
pub fn any(rng: &mut Rng) -> u64 {
    let mut half = || rng.below(1 << 32) as u64;
    half() << 32 | half()
}

/// Mostly numbers below the bound, some of them any.
pub fn entries(rng: &mut Rng, bound: usize, length: usize) -> Vec<u32> {
    let mut entry = |_| match rng.below(50) {
        0 => any(rng) as u32,
        _ => rng.below(bound) as u32,
    };
    (0..length).map(&mut entry).collect()
}

/// Any call that the library has.
pub fn any_call(rng: &mut Rng) -> Call {
    loop {
        let call = draw(rng);
        if Library::has(&call) {
            return call;
        }
    }
}

fn draw(rng: &mut Rng) -> Call {
    match rng.below(16) {
        0 => Call::Load(any_load(rng)),
        1 => Call::Reset,
        2 | 3 => Call::Retract(owner(rng)),
        4..=7 => Call::Put(owner(rng), route(rng)),
        8 => Call::Score,
        9 | 10 => Call::Verdict { room: room(rng) },
        11 => Call::Starts { room: room(rng) },
        12 => Call::Blocks {
            owners: owner_list(rng, OWNERS),
            room: room(rng),
        },
        _ => move_call(rng),
    }
}

fn move_call(rng: &mut Rng) -> Call {
    let bound = if rng.once_in(8) { 1_100 } else { 9 };
    let length = rng.below(bound);
    Call::Move {
        owner: owner(rng),
        step: a_move(rng, length),
        room: room(rng),
    }
}

fn owner(rng: &mut Rng) -> u32 {
    match rng.below(12) {
        0 => any(rng) as u32,
        1..=4 => rng.below(65) as u32,
        _ => rng.below(3) as u32,
    }
}

fn room(rng: &mut Rng) -> usize {
    match rng.below(4) {
        0 => rng.below(6),
        1 => rng.below(600),
        _ => 1_100,
    }
}

fn route(rng: &mut Rng) -> Vec<u32> {
    let length = match rng.below(20) {
        0 => rng.below(1_100),
        1 => 1_020 + rng.below(8),
        _ => rng.below(12),
    };
    let bound = [4, 12, 513][rng.below(3)];
    entries(rng, bound, length)
}

/// One that fits once in two.
fn any_load(rng: &mut Rng) -> Load {
    if rng.once_in(2) {
        let shape = [Shape::Tiny, Shape::Small, Shape::Wide][rng.below(3)];
        return Setting::new(rng, shape).load;
    }
    let (jobs, pairs) = (rng.below(516), rng.below(40));
    let mut off = |length: usize| length + rng.below(30) / 29;
    let (durations, expected) = (off(jobs), off(jobs));
    let (from, to) = (off(pairs), off(pairs));
    let duration_bits = if rng.once_in(6) { 0 } else { 24 };
    let mut from = entries(rng, jobs + 1, from);
    from.sort();
    Load {
        jobs: jobs as u32,
        owners: rng.below(66) as u32,
        durations: (0..durations).map(|_| any(rng) >> duration_bits).collect(),
        expected: entries(rng, 70, expected),
        from,
        to: entries(rng, jobs + 1, to),
    }
}
