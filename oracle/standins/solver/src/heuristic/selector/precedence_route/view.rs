//! Staging a move and asking either check of it; a child module sees the private scratch.

use super::*;

impl PrecedenceRouteGraph {
    pub(crate) fn staged(&self) -> &[usize] {
        &self.scratch_after_route
    }

    pub(crate) fn stage_list_change(&mut self, owner: usize, source: usize, dest: usize) {
        let route = &self.route_nodes[owner];
        route_after_list_change_into(route, source, dest, &mut self.scratch_after_route);
    }

    pub(crate) fn stage_sublist_change(
        &mut self,
        owner: usize,
        start: usize,
        end: usize,
        dest: usize,
    ) {
        let route = &self.route_nodes[owner];
        route_after_sublist_change_into(route, start, end, dest, &mut self.scratch_after_route);
    }

    /// No, if the given Rust stages nothing.
    pub(crate) fn stage_sublist_swap(
        &mut self,
        owner: usize,
        first: (usize, usize),
        second: (usize, usize),
    ) -> bool {
        let route = &self.route_nodes[owner];
        let staged = &mut self.scratch_after_route;
        route_after_sublist_swap_into(route, first.0, first.1, second.0, second.1, staged)
    }

    pub(crate) fn stage_permutation(
        &mut self,
        owner: usize,
        start: usize,
        end: usize,
        permutation: &[usize],
    ) {
        let route = &self.route_nodes[owner];
        route_after_permutation_into(
            route,
            start,
            end,
            permutation,
            &mut self.scratch_after_route,
        );
    }

    /// The given full check of the staged route: changed edges, then the topological removal.
    pub(crate) fn staged_has_cycle(&mut self, owner: usize) -> bool {
        changed_route_edges_into(
            &self.route_nodes[owner],
            &self.scratch_after_route,
            &mut self.scratch_before_edges,
            &mut self.scratch_after_edges,
            &mut self.scratch_removed,
            &mut self.scratch_added,
        );
        route_delta_has_cycle_into(
            &self.fixed_successors,
            &self.successors,
            &self.scratch_removed,
            &self.scratch_added,
            &mut self.scratch_indegree,
            &mut self.scratch_ready,
            &mut self.scratch_visited,
        )
    }
}
