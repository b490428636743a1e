//! Plans of 512 jobs and 64 owners with fixed seeds, for the benchmark and the replay list.

use crate::rng::Rng;
use rules::Load;
use std::collections::BTreeSet;

pub const JOBS: usize = 512;
pub const OWNERS: usize = 64;
const PAIRS: usize = 1_500;
const STAGES: usize = 8;
const STAGE: usize = JOBS / STAGES;
const ROUTE: usize = JOBS / OWNERS;

pub struct Workload {
    pub load: Load,
    pub routes: Vec<Vec<u32>>,
    /// Jobs in an order along which every fixed edge runs forward.
    pub rank: Vec<u32>,
}

/// Eight stages of 64 jobs, fixed edges from a stage to the next, each owner with eight jobs of
/// one stage: any order of a route is acyclic.
pub fn layered(seed: u64) -> Workload {
    let mut rng = Rng::new(seed);
    let rank = shuffled(&mut rng);
    let durations = durations(&mut rng);
    let mut fixed = BTreeSet::new();
    while fixed.len() < PAIRS {
        let stage = rng.below(STAGES - 1) * STAGE;
        let from = rank[stage + rng.below(STAGE)];
        fixed.insert((from, rank[stage + STAGE + rng.below(STAGE)]));
    }
    let routes = rank.chunks(ROUTE).map(<[u32]>::to_vec).collect();
    let load = load(durations, fixed.into_iter().collect());
    Workload { load, routes, rank }
}

/// Fixed edges forward along a ranking; owners hold eight jobs each, in ranking order.
pub fn ranked(seed: u64) -> Workload {
    let mut rng = Rng::new(seed);
    let rank = shuffled(&mut rng);
    let durations = durations(&mut rng);
    let mut fixed = BTreeSet::new();
    while fixed.len() < PAIRS {
        let (early, late) = (rng.below(JOBS), rng.below(JOBS));
        if early < late {
            fixed.insert((rank[early], rank[late]));
        }
    }
    let places = shuffled(&mut rng);
    let route = |places: &[u32]| {
        let mut places = places.to_vec();
        places.sort();
        places.iter().map(|&place| rank[place as usize]).collect()
    };
    let routes = places.chunks(ROUTE).map(route).collect();
    let load = load(durations, fixed.into_iter().collect());
    Workload { load, routes, rank }
}

/// One owner with all jobs in ranking order, over the fixed edges of `ranked`.
pub fn one_owner(seed: u64) -> Workload {
    let mut workload = ranked(seed);
    workload.routes = empty_routes();
    workload.routes[0] = workload.rank.clone();
    workload
}

/// Job 0 before 400 children, nothing else fixed.
pub fn hub(seed: u64) -> Workload {
    let durations = durations(&mut Rng::new(seed));
    Workload {
        load: load(durations, (1..=400).map(|child| (0, child)).collect()),
        routes: empty_routes(),
        rank: (0..JOBS as u32).collect(),
    }
}

/// Many visits: jobs 0 to 510 of duration 1, each before the next six, the farthest stored first;
/// job 511 is long, and stands before none.
pub fn ladder() -> Workload {
    let mut durations = vec![1; JOBS];
    durations[JOBS - 1] = 1_000_000;
    let last = JOBS as u32 - 1;
    let rungs = |from: u32| {
        (from + 1..(from + 7).min(last))
            .rev()
            .map(move |to| (from, to))
    };
    Workload {
        load: load(durations, (0..last).flat_map(rungs).collect()),
        routes: empty_routes(),
        rank: (0..JOBS as u32).collect(),
    }
}

fn shuffled(rng: &mut Rng) -> Vec<u32> {
    let mut jobs: Vec<u32> = (0..JOBS as u32).collect();
    rng.shuffle(&mut jobs);
    jobs
}

fn durations(rng: &mut Rng) -> Vec<u64> {
    (0..JOBS).map(|_| 1 + rng.below(100) as u64).collect()
}

fn empty_routes() -> Vec<Vec<u32>> {
    vec![Vec::new(); OWNERS]
}

fn load(durations: Vec<u64>, fixed: Vec<(u32, u32)>) -> Load {
    let (from, to) = fixed.into_iter().unzip();
    Load {
        jobs: JOBS as u32,
        owners: OWNERS as u32,
        durations,
        expected: Vec::new(),
        from,
        to,
    }
}
