//! The rules with the given Rust's known deviations, each written down once.
//!
//! - A: taking an old route back, a job that stands there c times counts min(c, 2) times.
//! - B: a put that finds a cycle, and through whose own owner nothing vanished, keeps the starts
//!   of before. A later put that makes no edge appear and leaves none of the edges that appeared
//!   then hands those starts back as they are, and later walks begin from them.
//! - C: a waiting owner that is emptied gets the invalid and violation counts of the route that
//!   was read last, in place of none.
//!
//! Deviation D, starts kept while cyclic, comes with B and is seen by nobody outside.

use given::{KeptParts, Refresh};
use rules::{assignment, makespan, walk, Edge, Exchange, Load, Penalty, Plan, Route, Score};

/// Which deviations have struck since load.
#[derive(Clone, Copy, Debug, Default, PartialEq, Eq)]
pub struct Struck {
    pub a: bool,
    pub b: bool,
    pub c: bool,
}

/// Invalid entries and violations of one route.
#[derive(Clone, Copy, Default, PartialEq, Eq)]
struct Counts {
    invalid: usize,
    violations: usize,
}

pub struct Model {
    plan: Plan,
    assigned: Vec<usize>,
    counts: Vec<Counts>,
    read_last: Counts,
    cyclic: bool,
    starts: Vec<u64>,
    /// Edges that appeared in the put that found the cycle, if the starts of before are kept.
    found_with: Vec<Edge>,
    struck: Struck,
}

impl Model {
    pub fn load(load: &Load) -> Model {
        let plan = Plan::new(load);
        let times = plan.times();
        Model {
            assigned: vec![0; plan.jobs],
            counts: vec![Counts::default(); plan.routes.len()],
            read_last: Counts::default(),
            cyclic: times.cyclic,
            starts: times.starts,
            found_with: Vec::new(),
            struck: Struck::default(),
            plan,
        }
    }

    pub fn retract(&mut self, owner: u32) {
        self.plan.retract(owner as usize);
    }

    pub fn put(&mut self, owner: u32, entries: &[u32]) -> (Score, Refresh) {
        let owner = owner as usize;
        let before = self.penalty().score();
        let route = Route::read(entries, self.plan.jobs);
        self.empty_waiting(owner);
        self.read(owner, &route);
        let exchange = self.plan.exchange(owner, route);
        let refresh = self.refresh(exchange);
        (self.penalty().score().minus(before), refresh)
    }

    pub fn struck(&self) -> Struck {
        self.struck
    }

    pub fn starts(&self) -> Vec<i64> {
        self.starts.iter().map(|&start| start as i64).collect()
    }

    pub fn parts(&self) -> KeptParts {
        let penalty = self.penalty();
        KeptParts {
            invalid_fixed: penalty.invalid_fixed,
            invalid: penalty.invalid,
            violations: penalty.violations,
            assignment: penalty.assignment,
            cycle: penalty.cycle,
            makespan: penalty.makespan as i64,
        }
    }

    fn penalty(&self) -> Penalty {
        let right = self.plan.penalty(&self.plan.times());
        Penalty {
            invalid: self.counts.iter().map(|counts| counts.invalid).sum(),
            violations: self.counts.iter().map(|counts| counts.violations).sum(),
            assignment: assignment(&self.assigned),
            makespan: self.makespan(),
            ..right
        }
    }

    fn makespan(&self) -> u64 {
        if self.cyclic {
            0
        } else {
            makespan(&self.starts, &self.plan.durations)
        }
    }

    /// Deviation C stands here.
    fn empty_waiting(&mut self, putting: usize) {
        for owner in self.plan.waiting.clone() {
            if owner != putting {
                self.reassign(owner, &[]);
                self.counts[owner] = self.read_last;
                self.struck.c |= self.read_last != Counts::default();
            }
        }
    }

    fn read(&mut self, owner: usize, route: &Route) {
        self.reassign(owner, &route.jobs());
        self.read_last = Counts {
            invalid: route.invalid,
            violations: self.plan.violations(owner, route),
        };
        self.counts[owner] = self.read_last;
    }

    /// Deviation A stands here.
    fn reassign(&mut self, owner: usize, new: &[usize]) {
        let old = self.plan.routes[owner].jobs();
        let times = |jobs: &[usize], job: usize| jobs.iter().filter(|&&other| other == job).count();
        for job in 0..self.plan.jobs {
            let held = times(&old, job);
            self.struck.a |= held > 2;
            self.assigned[job] = self.assigned[job] - held.min(2) + times(new, job);
        }
    }

    fn refresh(&mut self, exchange: Exchange) -> Refresh {
        if exchange.is_empty() {
            return Refresh::Skipped;
        }
        if self.cyclic {
            return self.refresh_cyclic(&exchange);
        }
        if self.plan.graph().cyclic() {
            self.find_cycle(exchange);
            return Refresh::CycleDetected;
        }
        Refresh::Incremental(walk(&self.plan, &mut self.starts, exchange.seeds()))
    }

    /// Deviation B stands here: the starts of before are handed back, right or wrong.
    fn refresh_cyclic(&mut self, exchange: &Exchange) -> Refresh {
        let times = self.plan.times();
        let found_with = std::mem::take(&mut self.found_with);
        let gone = |edge: &Edge| !self.plan.lists.contains(*edge);
        if exchange.appeared.is_empty() && !found_with.is_empty() && found_with.iter().all(gone) {
            self.cyclic = false;
            self.struck.b |= self.starts != times.starts;
            return Refresh::CycleRecovered;
        }
        self.cyclic = times.cyclic;
        self.starts = times.starts;
        Refresh::Full
    }

    fn find_cycle(&mut self, exchange: Exchange) {
        self.cyclic = true;
        if exchange.vanished.is_empty() {
            self.found_with = exchange.appeared;
        } else {
            self.starts.fill(0);
        }
    }
}
