//! Penalties, the score and the match count.

use crate::limits::NO_OWNER;
use crate::{Plan, Route, Times};

/// At or below zero as a score; of either sign as a difference.
#[derive(Clone, Copy, Debug, Default, PartialEq, Eq)]
pub struct Score {
    pub hard: i64,
    pub soft: i64,
}

impl Score {
    pub fn minus(self, before: Score) -> Score {
        Score {
            hard: self.hard - before.hard,
            soft: self.soft - before.soft,
        }
    }
}

/// The summands of the hard penalty, and the makespan.
#[derive(Clone, Copy, Debug, PartialEq, Eq)]
pub struct Penalty {
    pub invalid_fixed: usize,
    pub invalid: usize,
    pub violations: usize,
    pub assignment: usize,
    pub cycle: usize,
    pub makespan: u64,
}

impl Penalty {
    pub fn hard(&self) -> usize {
        self.invalid_fixed + self.invalid + self.violations + self.assignment + self.cycle
    }

    pub fn score(&self) -> Score {
        Score {
            hard: -(self.hard() as i64),
            soft: -(self.makespan as i64),
        }
    }

    pub fn matches(&self) -> usize {
        self.hard() + usize::from(self.makespan > 0)
    }
}

impl Plan {
    pub fn penalty(&self, times: &Times) -> Penalty {
        let violations = |(owner, route)| self.violations(owner, route);
        let to_invalid = |pair: &&(u32, u32)| pair.1 as usize >= self.jobs;
        Penalty {
            invalid_fixed: self.fixed.iter().filter(to_invalid).count(),
            invalid: self.routes.iter().map(|route| route.invalid).sum(),
            violations: self.routes.iter().enumerate().map(violations).sum(),
            assignment: assignment(&self.assigned()),
            cycle: if times.cyclic { self.jobs } else { 0 },
            makespan: times.makespan,
        }
    }

    /// Valid entries whose stated expected owner is another number.
    pub fn violations(&self, owner: usize, route: &Route) -> usize {
        let stated = |job: usize| self.expected.get(job).filter(|&&stated| stated != NO_OWNER);
        let violates = |job: &usize| stated(*job).is_some_and(|&stated| stated as usize != owner);
        route.jobs().into_iter().filter(violates).count()
    }

    /// How often each job is in force.
    fn assigned(&self) -> Vec<usize> {
        let mut assigned = vec![0; self.jobs];
        for job in self.routes.iter().flat_map(Route::jobs) {
            assigned[job] += 1;
        }
        assigned
    }
}

/// A job in force c times costs 1 for c = 0, else c - 1.
pub fn assignment(assigned: &[usize]) -> usize {
    let penalty = |&times: &usize| if times == 0 { 1 } else { times - 1 };
    assigned.iter().map(penalty).sum()
}
