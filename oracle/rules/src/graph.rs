//! A graph over jobs: line-ups, cycles and ways.

use std::collections::{BTreeSet, VecDeque};

/// From a job to a job.
pub type Edge = (usize, usize);

/// Neighbours in rising order.
pub struct Graph {
    pub successors: Vec<Vec<usize>>,
    pub predecessors: Vec<Vec<usize>>,
}

impl Graph {
    pub fn new(jobs: usize, edges: &BTreeSet<Edge>) -> Graph {
        let mut graph = Graph {
            successors: vec![Vec::new(); jobs],
            predecessors: vec![Vec::new(); jobs],
        };
        for &(from, to) in edges {
            graph.successors[from].push(to);
            graph.predecessors[to].push(from);
        }
        graph
    }

    fn jobs(&self) -> usize {
        self.successors.len()
    }

    /// The lowest line-up in dictionary order: each time the lowest job that is ready.
    pub fn line_up(&self) -> Option<Vec<usize>> {
        let mut missing: Vec<usize> = self.predecessors.iter().map(Vec::len).collect();
        let mut ready: BTreeSet<usize> =
            (0..self.jobs()).filter(|&job| missing[job] == 0).collect();
        let mut order = Vec::new();
        while let Some(job) = ready.pop_first() {
            order.push(job);
            for &next in &self.successors[job] {
                missing[next] -= 1;
                if missing[next] == 0 {
                    ready.insert(next);
                }
            }
        }
        (order.len() == self.jobs()).then_some(order)
    }

    pub fn cyclic(&self) -> bool {
        self.line_up().is_none()
    }

    /// Is there a way from one job to the other, of no edge or more?
    pub fn reaches(&self, from: usize, to: usize) -> bool {
        let mut seen = vec![false; self.jobs()];
        let mut open = vec![from];
        while let Some(job) = open.pop() {
            if job == to {
                return true;
            }
            if !std::mem::replace(&mut seen[job], true) {
                open.extend(&self.successors[job]);
            }
        }
        false
    }

    /// From the lowest job on a cycle a shortest cycle, of those the lowest in dictionary order.
    pub fn shown_cycle(&self) -> Option<Vec<usize>> {
        let lowest = (0..self.jobs()).find(|&job| self.on_cycle(job))?;
        let steps = self.steps_to(lowest);
        let mut cycle = vec![lowest];
        loop {
            let nexts = &self.successors[cycle[cycle.len() - 1]];
            let next = *nexts.iter().min_by_key(|&&next| (steps[next], next))?;
            if next == lowest {
                return Some(cycle);
            }
            cycle.push(next);
        }
    }

    fn on_cycle(&self, job: usize) -> bool {
        self.successors[job]
            .iter()
            .any(|&next| self.reaches(next, job))
    }

    /// For each job the fewest edges on a way to `target`.
    fn steps_to(&self, target: usize) -> Vec<usize> {
        let mut steps = vec![usize::MAX; self.jobs()];
        steps[target] = 0;
        let mut open = VecDeque::from([target]);
        while let Some(job) = open.pop_front() {
            for &before in &self.predecessors[job] {
                if steps[before] == usize::MAX {
                    steps[before] = steps[job] + 1;
                    open.push_back(before);
                }
            }
        }
        steps
    }
}
