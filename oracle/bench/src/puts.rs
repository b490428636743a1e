//! Puts that change a plan and put it back, so that a pass ends where it began.

use crate::rows::opened;
use compare::rng::Rng;
use compare::workloads::{Workload, JOBS, OWNERS};
use given::{Given, GivenMove, Refresh};

type Puts = Vec<(u32, Vec<u32>)>;

const SEED: u64 = 11;
const CHANGES: usize = 128;

/// One job of a route of 8 at another place, without a cycle.
pub fn job_moved(workload: &Workload) -> Puts {
    let mut graph = opened(workload).graph();
    changes(workload, |rng, owner, route| {
        let (source, dest) = (rng.below(8), rng.below(9));
        let step = GivenMove::ListChange(source, dest);
        let moved = graph.moved(owner, &step)?;
        let moved: Vec<u32> = moved.into_iter().map(|job| job as u32).collect();
        (moved != route && !graph.quick_check(owner, &step)).then_some(moved)
    })
}

/// An order of the 8 jobs that keeps few neighbours, without a cycle.
pub fn other_order(workload: &Workload) -> Puts {
    let mut graph = opened(workload).graph();
    changes(workload, |rng, owner, route| {
        let order = wandered(rng, |order| {
            graph.quick_check(owner, &GivenMove::Permutation(0, 8, order.to_vec()))
        });
        let new: Vec<u32> = order.into_iter().map(|place| route[place]).collect();
        (fresh_neighbours(route, &new) >= 4).then_some(new)
    })
}

/// Neighbour swaps from the first order on, each only if it closes no cycle.
fn wandered(rng: &mut Rng, mut closes: impl FnMut(&[usize]) -> bool) -> Vec<usize> {
    let mut order: Vec<usize> = (0..8).collect();
    for _ in 0..24 {
        let place = rng.below(7);
        order.swap(place, place + 1);
        if closes(&order) {
            order.swap(place, place + 1);
        }
    }
    order
}

fn fresh_neighbours(old: &[u32], new: &[u32]) -> usize {
    let fresh = |pair: &&[u32]| !old.windows(2).any(|held| held == *pair);
    new.windows(2).filter(fresh).count()
}

/// Two neighbours of the one long route swapped, without a cycle.
pub fn neighbours_swapped(workload: &Workload) -> Puts {
    let mut rng = Rng::new(SEED);
    let route = &workload.routes[0];
    let mut graph = opened(workload).graph();
    let mut puts = Vec::new();
    while puts.len() < CHANGES {
        let place = rng.below(JOBS - 1);
        if !graph.quick_check(0, &GivenMove::ListChange(place + 1, place)) {
            let mut swapped = route.clone();
            swapped.swap(place, place + 1);
            puts.extend([(0, swapped), (0, route.clone())]);
        }
    }
    puts
}

/// A route turned around if that closes a cycle, else its first job once more at the end.
pub fn cycle_and_back(workload: &Workload) -> Puts {
    let mut graph = opened(workload).graph();
    changes(workload, |_, owner, route| {
        let turned = GivenMove::Permutation(0, 8, (0..8).rev().collect());
        if graph.quick_check(owner, &turned) {
            return Some(route.iter().rev().copied().collect());
        }
        Some([route, &route[..1]].concat())
    })
}

/// An edge from the hub to a job that is no child.
pub fn to_the_hub(workload: &Workload) -> Puts {
    let mut place = 0;
    changes(workload, |_, _, _| {
        place = (place + 7) % 111;
        Some(vec![0, 401 + place])
    })
}

/// Changes of random owners' routes, each put back at once.
fn changes(
    workload: &Workload,
    mut change: impl FnMut(&mut Rng, usize, &[u32]) -> Option<Vec<u32>>,
) -> Puts {
    let mut rng = Rng::new(SEED);
    let mut puts = Vec::new();
    while puts.len() < 2 * CHANGES {
        let owner = rng.below(OWNERS);
        let route = &workload.routes[owner];
        if let Some(changed) = change(&mut rng, owner, route) {
            puts.extend([(owner as u32, changed), (owner as u32, route.clone())]);
        }
    }
    puts
}

/// What the given Rust's refresh does in these puts.
pub fn note(workload: &Workload, puts: &Puts) -> String {
    let (mut given, _) = Given::load(&workload.load);
    for (owner, route) in workload.routes.iter().enumerate() {
        given.put(owner as u32, route);
    }
    let (mut walks, mut visits, mut found, mut recovered, mut full) = (0, 0, 0, 0, 0);
    for (owner, entries) in puts {
        match given.put(*owner, entries).1 {
            Refresh::Skipped => {}
            Refresh::Incremental(steps) => {
                walks += 1;
                visits += steps;
            }
            Refresh::CycleDetected => found += 1,
            Refresh::CycleRecovered => recovered += 1,
            Refresh::Full => full += 1,
        }
    }
    if walks == puts.len() {
        return format!("{} visits each", visits / walks);
    }
    format!(
        "{found} found, {recovered} recovered, {full} full of {}",
        puts.len()
    )
}
