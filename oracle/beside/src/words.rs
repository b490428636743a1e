//! The words of a store that stands for a plan, by the tables of docs/LIMITS.md.

use crate::difference::Difference;
use crate::library::Library;
use notekarip::sizes::{ENTRIES, FIXED, JOBS, NO_OWNER, OWNERS};
use rules::{Edge, Plan, Route};
use std::collections::BTreeMap;

/// Places for edges, one more than there can be.
const EDGES: usize = 4_096;
/// Where the predecessors stand in the slice of the edges.
const PREDECESSORS: usize = (JOBS + 1) + EDGES + EDGES;

/// The order of a job's predecessors is not stated, so their rows are compared sorted.
pub fn check_words(library: &Library, plan: &Plan) -> Result<(), Difference> {
    let edges = sorted_predecessors(library.edges.slice());
    for (name, same) in [
        ("base", library.base.slice().starts_with(&base(plan))),
        ("spans", library.spans.slice().starts_with(&spans(plan))),
        (
            "edges",
            edges.is_some_and(|words| words.starts_with(&edge_words(plan))),
        ),
        ("routes", library.routes.slice().starts_with(&routes(plan))),
        ("times", library.times.slice().starts_with(&times(plan))),
    ] {
        Difference::unless(same, || format!("{name} does not stand for the plan"))?;
    }
    Ok(())
}

fn base(plan: &Plan) -> Vec<u32> {
    let jobs = plan.jobs as u32;
    let invalid = plan.fixed.iter().filter(|pair| pair.1 >= jobs).count();
    let counts = [
        1,
        jobs,
        plan.routes.len() as u32,
        plan.fixed.len() as u32,
        invalid as u32,
    ];
    let from = plan.fixed.iter().map(|pair| pair.0);
    let to = plan.fixed.iter().map(|pair| pair.1);
    let mut words = counts.to_vec();
    words.extend(padded(from, FIXED, 0));
    words.extend(padded(to, FIXED, 0));
    words.extend(padded(plan.expected.iter().copied(), JOBS, NO_OWNER));
    words
}

fn spans(plan: &Plan) -> Vec<u64> {
    padded(plan.durations.iter().copied(), JOBS, 0)
}

fn times(plan: &Plan) -> Vec<u64> {
    let times = plan.times();
    let mut words = vec![u64::from(times.cyclic), times.makespan];
    words.extend(padded(times.starts.into_iter(), JOBS, 0));
    words
}

fn routes(plan: &Plan) -> Vec<u16> {
    let entry = |stop: &rules::Stop| 2 * stop.job as u16 + u16::from(stop.joined);
    let row = |route: &Route| route.stops.iter().map(entry).collect();
    let rows: Vec<Vec<u16>> = plan.routes.iter().map(row).collect();
    let invalid = plan.routes.iter().map(|route| route.invalid as u16);
    let violations = |(owner, route)| plan.violations(owner, route) as u16;
    let mut words = offsets(&rows, OWNERS);
    words.extend(padded(rows.into_iter().flatten(), ENTRIES, 0));
    words.extend(padded(invalid, OWNERS, 0));
    words.extend(padded(
        plan.routes.iter().enumerate().map(violations),
        OWNERS,
        0,
    ));
    words.extend(assigned(plan));
    words.push(plan.waiting.len() as u16);
    words.extend(padded(
        plan.waiting.iter().map(|&owner| owner as u16),
        OWNERS,
        0,
    ));
    words
}

fn assigned(plan: &Plan) -> Vec<u16> {
    let mut assigned = vec![0; JOBS];
    for job in plan.routes.iter().flat_map(Route::jobs) {
        assigned[job] += 1;
    }
    assigned
}

fn edge_words(plan: &Plan) -> Vec<u16> {
    let counts = counts(plan);
    let successors = plan.lists.successors();
    let row = |heads: &Vec<usize>| heads.iter().map(|&to| to as u16).collect();
    let heads: Vec<Vec<u16>> = successors.iter().map(row).collect();
    let numbered = successors.iter().enumerate();
    let edges = numbered.flat_map(|(from, heads)| heads.iter().map(move |&to| (from, to)));
    let mut tails = vec![Vec::new(); plan.jobs];
    for &(from, to) in counts.keys() {
        tails[to].push(from as u16);
    }
    let mut words = offsets(&heads, JOBS);
    words.extend(padded(heads.into_iter().flatten(), EDGES, 0));
    words.extend(padded(edges.map(|edge| counts[&edge]), EDGES, 0));
    words.extend(offsets(&tails, JOBS));
    words.extend(padded(tails.into_iter().flatten(), EDGES, 0));
    words
}

/// How often the fixed list and the routes in force hold each edge.
fn counts(plan: &Plan) -> BTreeMap<Edge, u16> {
    let routed = plan.routes.iter().flat_map(Route::edges);
    let mut counts = BTreeMap::new();
    for edge in plan.fixed_edges().into_iter().chain(routed) {
        *counts.entry(edge).or_insert(0) += 1;
    }
    counts
}

/// The edges' words with each row of predecessors rising; nothing if the offsets are no offsets.
fn sorted_predecessors(words: &[u16]) -> Option<Vec<u16>> {
    let mut words = words.to_vec();
    let (offsets, rows) = words[PREDECESSORS..].split_at_mut(JOBS + 1);
    for ends in offsets.windows(2) {
        rows.get_mut(ends[0] as usize..ends[1] as usize)?.sort();
    }
    Some(words)
}

/// Where each row begins, and the total from the last one on.
fn offsets(rows: &[Vec<u16>], most: usize) -> Vec<u16> {
    let mut words = vec![0];
    for row in rows {
        words.push(words[words.len() - 1] + row.len() as u16);
    }
    words.resize(most + 1, words[words.len() - 1]);
    words
}

fn padded<T: Copy>(numbers: impl Iterator<Item = T>, length: usize, with: T) -> Vec<T> {
    let mut words: Vec<T> = numbers.collect();
    words.resize(length, with);
    words
}
