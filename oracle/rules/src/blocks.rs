//! Critical jobs, critical arcs and critical blocks.

use crate::times::latest;
use crate::{Edge, Plan};
use std::collections::BTreeSet;

#[derive(Clone, Copy, Debug, PartialEq, Eq)]
pub struct Block {
    pub owner: u32,
    pub first: u32,
    /// Inclusive.
    pub last: u32,
    /// The route's length.
    pub length: u32,
}

/// What decides on criticality in an acyclic plan.
struct Critical {
    jobs: Vec<bool>,
    arcs: BTreeSet<Edge>,
}

impl Plan {
    /// Jobs whose earliest start equals their latest; none while cyclic.
    pub fn critical_jobs(&self) -> Vec<usize> {
        let critical = self.critical();
        let is_critical = |job: &usize| critical.as_ref().is_some_and(|found| found.jobs[*job]);
        (0..self.jobs).filter(is_critical).collect()
    }

    /// Owners out of range are skipped, repeats are answered again; none while cyclic.
    pub fn blocks(&self, owners: &[u32]) -> Vec<Block> {
        let Some(critical) = self.critical() else {
            return Vec::new();
        };
        let known = |owner: &&u32| (**owner as usize) < self.routes.len();
        let of_owner = |&owner: &u32| self.owner_blocks(owner, &critical);
        owners.iter().filter(known).flat_map(of_owner).collect()
    }

    fn critical(&self) -> Option<Critical> {
        let graph = self.graph();
        let order = graph.line_up()?;
        let times = self.times();
        let latest = latest(&graph, &self.durations, times.makespan, &order);
        let jobs: Vec<bool> = (0..self.jobs)
            .map(|job| times.starts[job] == latest[job])
            .collect();
        let finish = |job: usize| times.starts[job] + self.durations[job];
        let critical =
            |edge: &Edge| jobs[edge.0] && jobs[edge.1] && finish(edge.0) == times.starts[edge.1];
        let arcs = self.live().into_iter().filter(critical).collect();
        Some(Critical { jobs, arcs })
    }

    /// Longest runs of critical arcs, and critical jobs on places that lie on no run.
    fn owner_blocks(&self, owner: u32, critical: &Critical) -> Vec<Block> {
        let jobs = self.routes[owner as usize].jobs();
        let mut blocks = Vec::new();
        let mut first = 0;
        while first < jobs.len() {
            let mut last = first;
            while last + 1 < jobs.len() && critical.arcs.contains(&(jobs[last], jobs[last + 1])) {
                last += 1;
            }
            if last > first || critical.jobs[jobs[first]] {
                blocks.push(Block {
                    owner,
                    first: first as u32,
                    last: last as u32,
                    length: jobs.len() as u32,
                });
            }
            first = last + 1;
        }
        blocks
    }
}
