//! The proved library as an engine of the speed table.

use bench::{Engine, Work};
use compare::workloads::Workload;
use notekarip::sizes::ENTRIES;
#[cfg(feature = "blocks")]
use notekarip::Block;
#[cfg(feature = "moves")]
use notekarip::{Checks, Move};
use notekarip::{Load, Owner, Score, Shown, Store};

/// The answer buffers are lent again and again: nothing is allocated while a call is timed.
pub struct Rattle {
    store: Store,
    load: rules::Load,
    /// For a verdict or a route, the longer of the two.
    jobs: Vec<u32>,
    #[cfg(feature = "blocks")]
    blocks: Vec<Block>,
}

impl Default for Rattle {
    fn default() -> Rattle {
        Rattle {
            store: Store::new(),
            load: rules::Load::default(),
            jobs: vec![0; ENTRIES],
            #[cfg(feature = "blocks")]
            blocks: vec![Block::default(); ENTRIES],
        }
    }
}

impl Engine for Rattle {
    fn name(&self) -> &'static str {
        "Rattle"
    }

    fn has(&self, work: &Work) -> bool {
        match work {
            Work::Load | Work::Puts(_) | Work::Verdict => true,
            Work::Quick(_) | Work::Full(_) | Work::Both(_) => cfg!(feature = "moves"),
            Work::Blocks(_) => cfg!(feature = "blocks"),
        }
    }

    fn open(&mut self, workload: &Workload) {
        self.load = workload.load.clone();
        self.load();
        for (owner, route) in workload.routes.iter().enumerate() {
            self.put(owner as u32, route);
        }
    }

    fn load(&mut self) -> (i64, i64) {
        let score = self.store.load(&Load {
            jobs: self.load.jobs,
            owners: self.load.owners,
            durations: &self.load.durations,
            expected: &self.load.expected,
            from: &self.load.from,
            to: &self.load.to,
        });
        parts(score.expect("a plan that fits"))
    }

    fn put(&mut self, owner: u32, entries: &[u32]) -> (i64, i64) {
        let (change, _) = self.store.put(Owner(owner), entries).expect("accepted");
        parts(change)
    }

    fn verdict(&mut self) -> usize {
        match self.store.verdict_into(&mut self.jobs).expect("loaded") {
            Shown::LineUp(jobs) | Shown::Cycle(jobs) => jobs,
        }
    }

    fn quick_check(&mut self, owner: u32, source: u32, dest: u32) -> bool {
        self.both_checks(owner, source, dest).0
    }

    fn full_check(&mut self, owner: u32, source: u32, dest: u32) -> bool {
        self.both_checks(owner, source, dest).1
    }

    #[cfg(feature = "moves")]
    fn both_checks(&mut self, owner: u32, source: u32, dest: u32) -> (bool, bool) {
        let step = Move::ListChange { source, dest };
        let checks = self.store.moved_into(Owner(owner), step, &mut self.jobs);
        let Checks { quick, full, .. } = checks.expect("good positions");
        (quick, full)
    }

    #[cfg(not(feature = "moves"))]
    fn both_checks(&mut self, _: u32, _: u32, _: u32) -> (bool, bool) {
        unreachable!("the library has no moves")
    }

    #[cfg(feature = "blocks")]
    fn blocks(&mut self, owners: &[u32]) -> usize {
        let found = self.store.blocks_into(owners, &mut self.blocks);
        found.expect("room for every block")
    }

    #[cfg(not(feature = "blocks"))]
    fn blocks(&mut self, _: &[u32]) -> usize {
        unreachable!("the library has no blocks")
    }
}

fn parts(score: Score) -> (i64, i64) {
    (score.hard, score.soft)
}
