//! The planning solution that the given Rust looks at through its callbacks.

use rules::{Load, NO_OWNER};
use solverforge_core::ConstraintRef;
use solverforge_scoring::constraint::list_precedence::ListPrecedenceMakespanConstraint;
use solverforge_solver::Graph;

pub type Constraint = ListPrecedenceMakespanConstraint<Solution>;

/// The loaded tables, and the routes as they were put.
#[derive(Clone, Debug, Default)]
pub struct Solution {
    pub jobs: usize,
    pub durations: Vec<u64>,
    pub expected: Vec<u32>,
    pub fixed: Vec<Vec<usize>>,
    pub routes: Vec<Vec<u32>>,
}

impl Solution {
    pub fn new(load: &Load) -> Solution {
        let jobs = load.jobs as usize;
        let mut fixed = vec![Vec::new(); jobs];
        for (&from, &to) in load.from.iter().zip(&load.to) {
            fixed[from as usize].push(to as usize);
        }
        Solution {
            jobs,
            durations: load.durations.clone(),
            expected: load.expected.clone(),
            fixed,
            routes: vec![Vec::new(); load.owners as usize],
        }
    }

    fn entry(&self, owner: usize, place: usize) -> Option<usize> {
        self.routes[owner].get(place).map(|&entry| entry as usize)
    }

    fn expected(&self, job: usize) -> Option<usize> {
        let stated = self.expected[job];
        (stated != NO_OWNER).then_some(stated as usize)
    }

    /// The given route graph, built afresh.
    pub fn graph(&self) -> Graph {
        Graph::build(
            self,
            self.jobs,
            |solution: &Solution, job, out| out.extend_from_slice(&solution.fixed[job]),
            |solution| solution.routes.len(),
            |solution, owner| solution.routes[owner].len(),
            Solution::entry,
        )
    }

    pub fn signed_durations(&self) -> Vec<i64> {
        self.durations
            .iter()
            .map(|&duration| duration as i64)
            .collect()
    }
}

/// The given constraint; it checks expected owners only if a table of them is stated.
pub fn constraint(solution: &Solution) -> Constraint {
    let constraint = Constraint::new(
        ConstraintRef("list precedence"),
        0,
        |solution| solution.jobs,
        |solution, job| solution.durations[job] as usize,
        |solution, job, out| out.extend_from_slice(&solution.fixed[job]),
        |solution| solution.routes.len(),
        |solution, owner| solution.routes[owner].len(),
        Solution::entry,
    );
    if solution.expected.is_empty() {
        constraint
    } else {
        constraint.with_expected_owner(Some(Solution::expected))
    }
}
