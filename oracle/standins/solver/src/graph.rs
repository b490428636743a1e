//! The way in from outside: the given route graph with its move checks and its critical blocks.

use crate::analysis::critical_analysis_from_graph;
use crate::heuristic::selector::precedence_route::{
    build_precedence_route_graph, PrecedenceRouteGraph,
};

#[derive(Default)]
pub struct Graph(PrecedenceRouteGraph);

#[derive(Clone, Copy, Debug, PartialEq, Eq)]
pub struct Block {
    pub owner: usize,
    pub first: usize,
    pub last: usize,
    pub length: usize,
}

#[derive(Clone, Debug)]
pub enum Move {
    ListChange(usize, usize),
    SublistChange(usize, usize, usize),
    SublistSwap(usize, usize, usize, usize),
    Permutation(usize, usize, Vec<usize>),
}

impl Graph {
    pub fn build<S>(
        solution: &S,
        jobs: usize,
        fixed_successors: impl FnMut(&S, usize, &mut Vec<usize>),
        owners: impl Fn(&S) -> usize,
        length: impl Fn(&S, usize) -> usize,
        entry: impl Fn(&S, usize, usize) -> Option<usize>,
    ) -> Graph {
        let elements: Vec<usize> = (0..jobs).collect();
        Graph(build_precedence_route_graph(
            solution,
            &elements,
            fixed_successors,
            owners,
            length,
            entry,
        ))
    }

    pub fn blocks(&mut self, durations: &[i64], owners: &[usize]) -> Vec<Block> {
        let graph = std::mem::take(&mut self.0);
        let analysis = critical_analysis_from_graph(durations, owners, graph);
        self.0 = analysis.route_graph;
        let record = |block: &crate::coordinates::CriticalBlock| Block {
            owner: block.entity,
            first: block.start,
            last: block.end,
            length: block.route_len,
        };
        analysis.blocks.iter().map(record).collect()
    }

    /// The route after the move; nothing, if the given Rust stages nothing.
    pub fn moved(&mut self, owner: usize, step: &Move) -> Option<Vec<usize>> {
        self.stage(owner, step).then(|| self.0.staged().to_vec())
    }

    pub fn quick_check(&mut self, owner: usize, step: &Move) -> bool {
        let graph = &mut self.0;
        match *step {
            Move::ListChange(source, dest) => {
                graph.intra_list_change_introduces_cycle(owner, source, dest)
            }
            Move::SublistChange(start, end, dest) => {
                graph.intra_sublist_change_introduces_cycle(owner, start, end, dest)
            }
            Move::SublistSwap(a, b, c, d) => {
                graph.intra_sublist_swap_introduces_cycle(owner, a, b, c, d)
            }
            Move::Permutation(start, end, ref list) => {
                graph.intra_list_permutation_introduces_cycle(owner, start, end, list)
            }
        }
    }

    pub fn full_check(&mut self, owner: usize, step: &Move) -> bool {
        self.stage(owner, step) && self.0.staged_has_cycle(owner)
    }

    fn stage(&mut self, owner: usize, step: &Move) -> bool {
        let graph = &mut self.0;
        match *step {
            Move::ListChange(source, dest) => graph.stage_list_change(owner, source, dest),
            Move::SublistChange(start, end, dest) => {
                graph.stage_sublist_change(owner, start, end, dest)
            }
            Move::SublistSwap(a, b, c, d) => {
                return graph.stage_sublist_swap(owner, (a, b), (c, d))
            }
            Move::Permutation(start, end, ref list) => {
                graph.stage_permutation(owner, start, end, list)
            }
        }
        true
    }
}
