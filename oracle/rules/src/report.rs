//! The refresh report of a put, and the walk that its visits count.

use crate::times::earliest;
use crate::{Exchange, Plan, Times};
use std::collections::VecDeque;

#[derive(Clone, Copy, Debug, PartialEq, Eq)]
pub enum Report {
    Skipped,
    Full,
    CycleFound,
    Incremental(usize),
}

impl Report {
    pub fn visits(self) -> usize {
        match self {
            Report::Incremental(visits) => visits,
            _ => 0,
        }
    }
}

impl Plan {
    /// The report of a put that made this plan, with the times of before and after it.
    pub(crate) fn report(&self, exchange: &Exchange, before: Times, after: &Times) -> Report {
        if exchange.is_empty() {
            return Report::Skipped;
        }
        if before.cyclic {
            return Report::Full;
        }
        if after.cyclic {
            return Report::CycleFound;
        }
        let mut starts = before.starts;
        let visits = walk(self, &mut starts, exchange.seeds());
        assert_eq!(starts, after.starts, "the walk ends at the true starts");
        Report::Incremental(visits)
    }
}

/// The first-in first-out walk over the stored lists; answers its steps and mends `starts`.
pub fn walk(plan: &Plan, starts: &mut [u64], seeds: Vec<usize>) -> usize {
    let graph = plan.graph();
    let mut queued = vec![false; plan.jobs];
    for &job in &seeds {
        queued[job] = true;
    }
    let mut queue = VecDeque::from(seeds);
    let mut visits = 0;
    while let Some(job) = queue.pop_front() {
        queued[job] = false;
        visits += 1;
        let start = earliest(&graph, starts, &plan.durations, job);
        if start == starts[job] {
            continue;
        }
        starts[job] = start;
        for &next in &plan.lists.successors()[job] {
            if !std::mem::replace(&mut queued[next], true) {
                queue.push_back(next);
            }
        }
    }
    visits
}
