//! Histories on the workloads of the speed table: 512 jobs, 64 owners.

use crate::difference::Difference;
use crate::histories::Played;
use compare::rng::Rng;
use compare::workloads::{hub, ladder, layered, one_owner, ranked, Workload};
use rules::{Call, Plan};

const CHANGES: usize = 24;

/// The routes of a workload, then changes of them, with questions now and then.
pub fn history(rng: &mut Rng, played: &mut Played) -> Result<(), Difference> {
    let workload = workload(rng);
    let owners = workload.routes.len();
    played.call(rng, Call::Load(workload.load))?;
    for (owner, route) in workload.routes.into_iter().enumerate() {
        if !route.is_empty() {
            played.call(rng, Call::Put(owner as u32, route))?;
        }
    }
    played.look(rng)?;
    for _ in 0..CHANGES {
        if rng.once_in(4) {
            let waits = rng.below(owners) as u32;
            played.call(rng, Call::Retract(waits))?;
        }
        let put = change(rng, played.pair.plan().expect("loaded"));
        played.call(rng, put)?;
        if rng.once_in(3) {
            played.look(rng)?;
        }
    }
    played.look(rng)
}

fn workload(rng: &mut Rng) -> Workload {
    let seed = rng.below(1_000_000) as u64;
    match rng.below(6) {
        0 | 1 => layered(seed),
        2 => ranked(seed),
        3 => one_owner(seed),
        4 => hub(seed),
        _ => ladder(),
    }
}

/// A put that changes an owner's route a little, now and then into a cycle.
fn change(rng: &mut Rng, plan: &Plan) -> Call {
    // Owner 0 has the long route where there is one.
    let owner = if rng.once_in(3) {
        0
    } else {
        rng.below(plan.routes.len())
    };
    let jobs = plan.routes[owner].jobs();
    let mut route: Vec<u32> = jobs.into_iter().map(|job| job as u32).collect();
    let any_job = rng.below(plan.jobs) as u32;
    if route.len() < 2 {
        route.push(any_job);
    } else {
        let length = route.len();
        let (place, other) = (rng.below(length), rng.below(length));
        match rng.below(8) {
            0..=2 => route.swap(place, (place + 1) % length),
            3 => route.swap(place, other),
            4 => {
                let job = route.remove(place);
                route.insert(other, job);
            }
            5 => route.truncate(place),
            6 => route.push(route[0]),
            _ => route.insert(place, any_job),
        }
    }
    Call::Put(owner as u32, route)
}
