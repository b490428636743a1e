//! Calls that are refused, or nearly.

use compare::random::a_move;
use compare::rng::Rng;
use rules::{Call, Load, Plan, DURATION, ENTRIES, FIXED, JOBS, OWNERS};

type Spoil = fn(&mut Rng, &mut Load);

/// In the order of their refusals, 2 to 4.
const SPOILS: [Spoil; 3] = [spoil_size, spoil_duration, spoil_from];

/// A load, a put or a retraction with something wrong in it, two things now and then.
pub fn spoilt(rng: &mut Rng, load: &Load, plan: &Plan) -> Call {
    match rng.below(8) {
        0..=2 => Call::Load(spoilt_load(rng, load)),
        3 => Call::Retract(no_owner(rng, plan)),
        4 => Call::Put(no_owner(rng, plan), entries(rng, plan.jobs, 1)),
        5 => Call::Put(no_owner(rng, plan), entries(rng, plan.jobs, ENTRIES + 1)),
        6 => {
            let length = ENTRIES + rng.below(3);
            let owner = rng.below(plan.routes.len()) as u32;
            Call::Put(owner, entries(rng, plan.jobs, length))
        }
        _ => crowd(rng, plan),
    }
}

/// A call that needs a loaded store, whatever its arguments.
pub fn early(rng: &mut Rng) -> Call {
    let room = rng.below(3);
    match rng.below(7) {
        0 => Call::Score,
        1 => Call::Verdict { room },
        2 => Call::Starts { room },
        3 => Call::Retract(rng.below(70) as u32),
        4 => Call::Blocks {
            owners: entries(rng, 3, 2),
            room,
        },
        5 => Call::Move {
            owner: rng.below(70) as u32,
            step: a_move(rng, 2),
            room,
        },
        _ => Call::Put(rng.below(70) as u32, entries(rng, 3, 2)),
    }
}

fn no_owner(rng: &mut Rng, plan: &Plan) -> u32 {
    [plan.routes.len() as u32, OWNERS as u32, u32::MAX][rng.below(3)]
}

/// Mostly jobs, some of them none.
fn entries(rng: &mut Rng, jobs: usize, length: usize) -> Vec<u32> {
    let mut entry = |_| match rng.below(40) {
        0 => u32::MAX,
        _ => rng.below(jobs + 1) as u32,
    };
    (0..length).map(&mut entry).collect()
}

/// As many entries as there is room for in force, or one more.
fn crowd(rng: &mut Rng, plan: &Plan) -> Call {
    let owner = rng.below(plan.routes.len());
    let room = ENTRIES - plan.in_force_after(owner, 0);
    let length = if plan.jobs == 0 {
        0
    } else {
        room + rng.below(2)
    };
    let mut job = |_| rng.below(plan.jobs) as u32;
    Call::Put(owner as u32, (0..length).map(&mut job).collect())
}

fn spoilt_load(rng: &mut Rng, load: &Load) -> Load {
    let mut load = load.clone();
    for _ in 0..1 + rng.below(2) {
        SPOILS[rng.below(3)](rng, &mut load);
    }
    load
}

fn spoil_size(rng: &mut Rng, load: &mut Load) {
    match rng.below(7) {
        0 => load.jobs += 1,
        1 => load.owners = OWNERS as u32 + 1 + rng.below(3) as u32,
        2 => load.durations.push(0),
        3 => load.expected.push(0),
        4 => load.to.push(0),
        5 => {
            load.from.resize(FIXED + 1, load.jobs.saturating_sub(1));
            load.to.resize(FIXED + 1, 0);
        }
        _ => {
            load.jobs = JOBS as u32 + 1;
            load.durations.resize(JOBS + 1, 0);
        }
    }
}

fn spoil_duration(rng: &mut Rng, load: &mut Load) {
    if let Some(count) = load.durations.len().checked_sub(1) {
        load.durations[rng.below(count + 1)] = [DURATION + 1, u64::MAX][rng.below(2)];
    }
}

fn spoil_from(rng: &mut Rng, load: &mut Load) {
    if rng.once_in(2) {
        load.from.push([load.jobs, u32::MAX][rng.below(2)]);
        load.to.push(0);
    } else if load.jobs > 1 {
        load.from.extend([1, 0]);
        load.to.extend([0, 1]);
    }
}
