//! Starts, makespan and latest starts.

use crate::{Graph, Plan};

#[derive(Clone, Debug, PartialEq, Eq)]
pub struct Times {
    pub cyclic: bool,
    /// All 0 while cyclic.
    pub starts: Vec<u64>,
    /// 0 while cyclic.
    pub makespan: u64,
}

impl Plan {
    pub fn times(&self) -> Times {
        match starts(&self.graph(), &self.durations) {
            Some(starts) => Times {
                cyclic: false,
                makespan: makespan(&starts, &self.durations),
                starts,
            },
            None => Times {
                cyclic: true,
                starts: vec![0; self.jobs],
                makespan: 0,
            },
        }
    }
}

/// The greatest duration sum along a path that leads to each job; nothing if cyclic.
fn starts(graph: &Graph, durations: &[u64]) -> Option<Vec<u64>> {
    let mut starts = vec![0; durations.len()];
    for job in graph.line_up()? {
        starts[job] = earliest(graph, &starts, durations, job);
    }
    Some(starts)
}

/// The greatest finish of a job's predecessors, 0 without any.
pub(crate) fn earliest(graph: &Graph, starts: &[u64], durations: &[u64], job: usize) -> u64 {
    let before = &graph.predecessors[job];
    let finishes = before.iter().map(|&from| starts[from] + durations[from]);
    finishes.max().unwrap_or(0)
}

/// The greatest finish, 0 without jobs.
pub fn makespan(starts: &[u64], durations: &[u64]) -> u64 {
    let finishes = starts
        .iter()
        .zip(durations)
        .map(|(start, duration)| start + duration);
    finishes.max().unwrap_or(0)
}

/// Latest starts of an acyclic graph, backwards along a line-up.
pub(crate) fn latest(graph: &Graph, durations: &[u64], makespan: u64, order: &[usize]) -> Vec<u64> {
    let mut latest = vec![0; durations.len()];
    for &job in order.iter().rev() {
        let after = graph.successors[job].iter().map(|&next| latest[next]);
        latest[job] = after.min().unwrap_or(makespan) - durations[job];
    }
    latest
}
