//! What stands after an accepted load.

use crate::{Edge, Graph, Load, Route, StoredLists};
use std::collections::BTreeSet;

#[derive(Clone, Debug, PartialEq, Eq)]
pub struct Plan {
    pub jobs: usize,
    pub durations: Vec<u64>,
    pub expected: Vec<u32>,
    pub fixed: Vec<(u32, u32)>,
    pub routes: Vec<Route>,
    /// Waiting owners in the order they began to wait.
    pub waiting: Vec<usize>,
    pub lists: StoredLists,
}

impl Plan {
    /// Every route empty, none waiting; the fixed list is added in order.
    pub fn new(load: &Load) -> Plan {
        let jobs = load.jobs as usize;
        let mut plan = Plan {
            jobs,
            durations: load.durations.clone(),
            expected: load.expected.clone(),
            fixed: load
                .from
                .iter()
                .copied()
                .zip(load.to.iter().copied())
                .collect(),
            routes: vec![Route::default(); load.owners as usize],
            waiting: Vec::new(),
            lists: StoredLists::new(jobs),
        };
        for edge in plan.fixed_edges() {
            plan.lists.add(edge);
        }
        plan
    }

    /// Each fixed pair with `to` below n gives an edge.
    pub fn fixed_edges(&self) -> Vec<Edge> {
        self.fixed
            .iter()
            .map(|&(from, to)| (from as usize, to as usize))
            .filter(|edge| edge.1 < self.jobs)
            .collect()
    }

    /// The live edges, told from the fixed list and the routes in force alone.
    pub fn live(&self) -> BTreeSet<Edge> {
        let routed = self.routes.iter().flat_map(Route::edges);
        self.fixed_edges().into_iter().chain(routed).collect()
    }

    pub fn graph(&self) -> Graph {
        Graph::new(self.jobs, &self.live())
    }

    /// Valid entries in force if `owner` put a route of `entries` valid ones now.
    pub fn in_force_after(&self, owner: usize, entries: usize) -> usize {
        let stays = |other: &usize| *other != owner && !self.waiting.contains(other);
        let others = (0..self.routes.len()).filter(stays);
        entries + others.map(|other| self.routes[other].len()).sum::<usize>()
    }

    pub fn retract(&mut self, owner: usize) {
        if !self.waiting.contains(&owner) {
            self.waiting.push(owner);
        }
    }
}
