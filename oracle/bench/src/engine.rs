//! What an engine must be able to do to stand in the table.

use crate::rows::Work;
use compare::workloads::Workload;

/// One side of the table. Every side gets the same calls in the same order, and its answers
/// must be the same as those of the others.
pub trait Engine {
    fn name(&self) -> &'static str;

    /// Whether it has an answer to this work at all.
    fn has(&self, work: &Work) -> bool;

    /// Loads the plan and puts its routes; not timed.
    fn open(&mut self, workload: &Workload);

    /// Loads the opened plan's tables anew, without routes; answers the score.
    fn load(&mut self) -> (i64, i64);

    /// Answers the score change.
    fn put(&mut self, owner: u32, entries: &[u32]) -> (i64, i64);

    /// The number of jobs in the shown line-up or cycle of the opened plan.
    fn verdict(&mut self) -> usize;

    /// The quick check of a list change in the opened plan.
    fn quick_check(&mut self, owner: u32, source: u32, dest: u32) -> bool;

    /// The full check of a list change in the opened plan.
    fn full_check(&mut self, owner: u32, source: u32, dest: u32) -> bool;

    /// Both checks of a list change; an engine whose move answers both overrides it.
    fn both_checks(&mut self, owner: u32, source: u32, dest: u32) -> (bool, bool) {
        let quick = self.quick_check(owner, source, dest);
        (quick, self.full_check(owner, source, dest))
    }

    /// The number of critical blocks in the opened plan.
    fn blocks(&mut self, owners: &[u32]) -> usize;
}
