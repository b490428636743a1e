//! What the comparison reads of the given state; a child module sees the private fields.

use super::*;

/// The given refresh kinds, which the given file keeps private.
#[derive(Clone, Copy, Debug, PartialEq, Eq)]
pub enum Refresh {
    Skipped,
    Incremental(usize),
    CycleDetected,
    CycleRecovered,
    Full,
}

/// The summands of the kept hard penalty, and the kept makespan.
#[derive(Clone, Copy, Debug, PartialEq, Eq)]
pub struct KeptParts {
    pub invalid_fixed: usize,
    pub invalid: usize,
    pub violations: usize,
    pub assignment: usize,
    pub cycle: usize,
    pub makespan: i64,
}

impl From<GraphRefreshKind> for Refresh {
    fn from(kind: GraphRefreshKind) -> Self {
        match kind {
            GraphRefreshKind::Skipped => Refresh::Skipped,
            GraphRefreshKind::Incremental { visited } => Refresh::Incremental(visited),
            GraphRefreshKind::CycleDetected => Refresh::CycleDetected,
            GraphRefreshKind::CycleRecovered => Refresh::CycleRecovered,
            GraphRefreshKind::Full => Refresh::Full,
        }
    }
}

impl<S: Send + Sync> ListPrecedenceMakespanConstraint<S> {
    fn kept(&self) -> &ListPrecedenceState {
        self.state.as_ref().expect("initialized")
    }

    pub fn kept_score(&self) -> HardSoftScore {
        self.kept().score
    }

    pub fn kept_cyclic(&self) -> bool {
        self.kept().cycle_penalty > 0
    }

    pub fn kept_starts(&self) -> &[i64] {
        &self.kept().earliest
    }

    pub fn kept_successors(&self) -> &[Vec<usize>] {
        &self.kept().successors
    }

    pub fn kept_parts(&self) -> KeptParts {
        let state = self.kept();
        KeptParts {
            invalid_fixed: state.invalid_fixed_edges,
            invalid: state.owner_invalid_total,
            violations: state.owner_violation_total,
            assignment: state.assignment_penalty,
            cycle: state.cycle_penalty,
            makespan: state.makespan,
        }
    }

    /// The steps of `on_insert`, with the refresh kind kept where `on_insert` drops it.
    pub fn on_insert_reporting(&mut self, solution: &S, owner: usize) -> (HardSoftScore, Refresh) {
        let access = self.access();
        let state = self.state.as_mut().expect("initialized");
        let before = state.score;
        let mut change = state.take_route_change_scratch();
        state.flush_pending_retractions(&mut change, owner);
        state.replace_owner_route_scratch_with(&mut change, solution, owner, access);
        let refresh = state.refresh_graph_after_route_change(&change).into();
        // The graph is fresh now, so an empty change only sums the score again.
        let after = state.refresh_score_after_route_change(&RouteChange::default());
        state.restore_route_change_scratch(change);
        (after - before, refresh)
    }
}
