//! The given Rust as an engine.

use crate::engine::Engine;
use crate::rows::Work;
use compare::workloads::Workload;
use given::{constraint, score, Constraint, GivenMove, Graph, IncrementalConstraint, Solution};

#[derive(Default)]
pub struct GivenRust {
    solution: Solution,
    constraint: Option<Constraint>,
    /// The route graph of the opened plan, ready before the checks and the blocks are timed.
    graph: Graph,
    durations: Vec<i64>,
    owners: Vec<usize>,
}

impl GivenRust {
    fn constraint(&mut self) -> (&mut Constraint, &Solution) {
        (self.constraint.as_mut().expect("opened"), &self.solution)
    }
}

impl Engine for GivenRust {
    fn name(&self) -> &'static str {
        "given Rust"
    }

    /// It tells whether a plan is cyclic, and shows neither a line-up nor a cycle.
    fn has(&self, work: &Work) -> bool {
        !matches!(work, Work::Verdict)
    }

    fn open(&mut self, workload: &Workload) {
        self.solution = Solution::new(&workload.load);
        self.solution.routes = workload.routes.clone();
        self.durations = self.solution.signed_durations();
        self.graph = self.solution.graph();
        let mut opened = constraint(&self.solution);
        opened.initialize(&self.solution);
        self.constraint = Some(opened);
    }

    /// The row opens a plan without routes, so that nothing has to be cleared here.
    fn load(&mut self) -> (i64, i64) {
        let (constraint, solution) = self.constraint();
        let loaded = score(constraint.initialize(solution));
        (loaded.hard, loaded.soft)
    }

    fn put(&mut self, owner: u32, entries: &[u32]) -> (i64, i64) {
        let route = &mut self.solution.routes[owner as usize];
        route.clear();
        route.extend_from_slice(entries);
        let (constraint, solution) = self.constraint();
        let change = score(constraint.on_insert(solution, owner as usize, 0));
        (change.hard, change.soft)
    }

    fn verdict(&mut self) -> usize {
        unreachable!("the given Rust shows no verdict")
    }

    fn quick_check(&mut self, owner: u32, source: u32, dest: u32) -> bool {
        let step = GivenMove::ListChange(source as usize, dest as usize);
        self.graph.quick_check(owner as usize, &step)
    }

    fn full_check(&mut self, owner: u32, source: u32, dest: u32) -> bool {
        let step = GivenMove::ListChange(source as usize, dest as usize);
        self.graph.full_check(owner as usize, &step)
    }

    fn blocks(&mut self, owners: &[u32]) -> usize {
        self.owners.clear();
        self.owners
            .extend(owners.iter().map(|&owner| owner as usize));
        self.graph.blocks(&self.durations, &self.owners).len()
    }
}
