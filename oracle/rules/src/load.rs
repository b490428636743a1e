//! What load is given, and refusals 2, 3 and 4.

use crate::limits::{DURATION, FIXED, JOBS, OWNERS};
use crate::Refusal;

#[derive(Clone, Debug, Default, PartialEq, Eq)]
pub struct Load {
    pub jobs: u32,
    pub owners: u32,
    pub durations: Vec<u64>,
    pub expected: Vec<u32>,
    pub from: Vec<u32>,
    pub to: Vec<u32>,
}

impl Load {
    pub fn check(&self) -> Result<(), Refusal> {
        Refusal::Size.when(!self.sizes_fit())?;
        Refusal::Duration.when(self.durations.iter().any(|&duration| duration > DURATION))?;
        Refusal::From.when(!self.fixed_list_fits())
    }

    fn sizes_fit(&self) -> bool {
        let jobs = self.jobs as usize;
        jobs <= JOBS
            && self.owners as usize <= OWNERS
            && self.durations.len() == jobs
            && (self.expected.is_empty() || self.expected.len() == jobs)
            && self.from.len() <= FIXED
            && self.to.len() == self.from.len()
    }

    fn fixed_list_fits(&self) -> bool {
        self.from.iter().all(|&from| from < self.jobs) && self.from.is_sorted()
    }
}
