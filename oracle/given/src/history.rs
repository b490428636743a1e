//! The given Rust over a history of load, retract and put.

use crate::{constraint, score, Constraint, IncrementalConstraint, KeptParts, Refresh, Solution};
use rules::{Block, Load, Score};

const LIST_DESCRIPTOR: usize = 0;

pub struct Given {
    constraint: Constraint,
    /// The same history once more, by the steps of `on_insert` with the refresh kind kept.
    reporting: Constraint,
    solution: Solution,
    waiting: Vec<usize>,
}

/// What the given Rust holds of a plan.
#[derive(Clone, Debug, PartialEq, Eq)]
pub struct Kept {
    pub score: Score,
    pub matches: usize,
    pub cyclic: bool,
    pub starts: Vec<i64>,
}

impl Given {
    pub fn load(load: &Load) -> (Given, Score) {
        let solution = Solution::new(load);
        let mut given = Given {
            constraint: constraint(&solution),
            reporting: constraint(&solution),
            solution,
            waiting: Vec::new(),
        };
        given.reporting.initialize(&given.solution);
        let loaded = given.constraint.initialize(&given.solution);
        (given, score(loaded))
    }

    pub fn retract(&mut self, owner: u32) -> Score {
        let owner = owner as usize;
        self.waiting.push(owner);
        self.reporting
            .on_retract(&self.solution, owner, LIST_DESCRIPTOR);
        score(
            self.constraint
                .on_retract(&self.solution, owner, LIST_DESCRIPTOR),
        )
    }

    pub fn put(&mut self, owner: u32, entries: &[u32]) -> (Score, Refresh) {
        let owner = owner as usize;
        for waiting in self.waiting.drain(..) {
            self.solution.routes[waiting].clear();
        }
        self.solution.routes[owner] = entries.to_vec();
        let change = self
            .constraint
            .on_insert(&self.solution, owner, LIST_DESCRIPTOR);
        let (again, refresh) = self.reporting.on_insert_reporting(&self.solution, owner);
        assert_eq!(change, again);
        assert_eq!(kept(&self.constraint), kept(&self.reporting));
        (score(change), refresh)
    }

    /// What is kept along the history.
    pub fn kept(&self) -> Kept {
        kept(&self.constraint)
    }

    pub fn kept_parts(&self) -> KeptParts {
        self.constraint.kept_parts()
    }

    pub fn kept_successors(&self) -> &[Vec<usize>] {
        self.constraint.kept_successors()
    }

    /// `initialize` over the routes in force.
    pub fn fresh(&self) -> Kept {
        let mut fresh = constraint(&self.solution);
        let answer = fresh.initialize(&self.solution);
        assert_eq!(answer, fresh.kept_score());
        kept(&fresh)
    }

    /// `evaluate` and `match_count` over the routes in force.
    pub fn evaluated(&self) -> (Score, usize) {
        let scored = self.constraint.evaluate(&self.solution);
        (score(scored), self.constraint.match_count(&self.solution))
    }

    pub fn blocks(&self, owners: &[u32]) -> Vec<Block> {
        let owners: Vec<usize> = owners.iter().map(|&owner| owner as usize).collect();
        let mut graph = self.solution.graph();
        let blocks = graph.blocks(&self.solution.signed_durations(), &owners);
        let record = |block: solverforge_solver::Block| Block {
            owner: block.owner as u32,
            first: block.first as u32,
            last: block.last as u32,
            length: block.length as u32,
        };
        blocks.into_iter().map(record).collect()
    }

    pub fn solution(&self) -> &Solution {
        &self.solution
    }
}

fn kept(constraint: &Constraint) -> Kept {
    let parts = constraint.kept_parts();
    let score = score(constraint.kept_score());
    Kept {
        score,
        matches: (-score.hard) as usize + usize::from(parts.makespan > 0),
        cyclic: constraint.kept_cyclic(),
        starts: constraint.kept_starts().to_vec(),
    }
}
