//! A store of its own, and the calls on it.

use crate::answer::{Report, Score, Shown, Verdict};
use crate::calls;
use crate::refusal::Refusal;
use crate::sizes::{BASE, EDGES, JOBS, NUMS, ROUTES, SPANS, TIMES, TOLD};

/// An owner's number, so that no job is taken for an owner.
#[derive(Clone, Copy, Debug, PartialEq, Eq, PartialOrd, Ord, Hash)]
pub struct Owner(pub u32);

/// What a plan is loaded from. Empty `expected`: no owner is expected of any job.
#[derive(Clone, Copy, Debug, Default, PartialEq, Eq, Hash)]
pub struct Load<'a> {
    pub jobs: u32,
    pub owners: u32,
    pub durations: &'a [u64],
    pub expected: &'a [u32],
    /// The fixed list: pair k leads from `from[k]` to `to[k]`.
    pub from: &'a [u32],
    pub to: &'a [u32],
}

/// The words of one plan. New, it is zeroed: not loaded.
#[derive(Clone, Debug, PartialEq, Eq)]
pub struct Store {
    pub(crate) base: Box<[u32]>,
    pub(crate) spans: Box<[u64]>,
    pub(crate) edges: Box<[u16]>,
    pub(crate) routes: Box<[u16]>,
    pub(crate) times: Box<[u64]>,
}

impl Default for Store {
    fn default() -> Store {
        Store::new()
    }
}

impl Store {
    /// ```
    /// use notekarip::{Refusal, Store};
    ///
    /// assert_eq!(Store::new().score(), Err(Refusal::NotLoaded));
    /// ```
    pub fn new() -> Store {
        Store {
            base: vec![0; BASE].into(),
            spans: vec![0; SPANS].into(),
            edges: vec![0; EDGES].into(),
            routes: vec![0; ROUTES].into(),
            times: vec![0; TIMES].into(),
        }
    }

    /// Every route empty, none waiting; answers the score. What was there is replaced.
    ///
    /// ```
    /// use notekarip::{Load, Refusal, Score, Store};
    ///
    /// let mut store = Store::new();
    /// let one = Load { jobs: 1, owners: 1, durations: &[5], ..Load::default() };
    /// assert_eq!(store.load(&one), Ok(Score { hard: -1, soft: -5 }));
    /// assert_eq!(store.load(&Load { jobs: 2, ..one }), Err(Refusal::Size));
    /// ```
    pub fn load(&mut self, load: &Load<'_>) -> Result<Score, Refusal> {
        let mut nums = [0; NUMS];
        let code = calls::load(
            &mut self.base,
            &mut self.spans,
            &mut self.edges,
            &mut self.routes,
            &mut self.times,
            load.jobs,
            load.owners,
            load.durations,
            load.expected,
            load.from,
            load.to,
            &mut nums,
        );
        Refusal::check(code)?;
        Ok(Score::of(nums))
    }

    /// Not loaded any more; a store of this type is never refused it.
    pub fn reset(&mut self) -> Result<(), Refusal> {
        let mut nums = [0; NUMS];
        Refusal::check(calls::reset(
            &mut self.base,
            &self.spans,
            &self.edges,
            &self.routes,
            &self.times,
            &mut nums,
        ))
    }

    /// The owner waits: its route stays in force until the next put.
    pub fn retract(&mut self, owner: Owner) -> Result<(), Refusal> {
        let mut nums = [0; NUMS];
        Refusal::check(calls::retract(
            &self.base,
            &self.spans,
            &self.edges,
            &mut self.routes,
            &self.times,
            owner.0,
            &mut nums,
        ))
    }

    /// The owner's new route; waiting owners get empty ones. Answers the score change.
    ///
    /// ```
    /// use notekarip::{Load, Owner, Report, Score, Store};
    ///
    /// let mut store = Store::new();
    /// let durations = [3, 4];
    /// store.load(&Load { jobs: 2, owners: 1, durations: &durations, ..Load::default() })?;
    /// // Entry 9 is no job: it is counted, and it breaks the chain.
    /// let (change, report) = store.put(Owner(0), &[0, 9, 1])?;
    /// assert_eq!(change, Score { hard: 1, soft: 0 });
    /// assert_eq!(report, Report::Skipped);
    /// # Ok::<(), notekarip::Refusal>(())
    /// ```
    pub fn put(&mut self, owner: Owner, entries: &[u32]) -> Result<(Score, Report), Refusal> {
        let mut nums = [0; NUMS];
        let mut told = [0; TOLD];
        let code = calls::put(
            &self.base,
            &self.spans,
            &mut self.edges,
            &mut self.routes,
            &mut self.times,
            owner.0,
            entries,
            &mut nums,
            &mut told,
        );
        Refusal::check(code)?;
        Ok((Score::of(nums), Report::of(told[0], told[1])))
    }

    /// The score and the match count.
    pub fn score(&self) -> Result<(Score, u64), Refusal> {
        let mut nums = [0; NUMS];
        let mut told = [0; TOLD];
        let code = calls::score(
            &self.base,
            &self.spans,
            &self.edges,
            &self.routes,
            &self.times,
            &mut nums,
            &mut told,
        );
        Refusal::check(code)?;
        Ok((Score::of(nums), told[0]))
    }

    /// The shown line-up, or the shown cycle.
    pub fn verdict(&self) -> Result<Verdict, Refusal> {
        let mut jobs = vec![0; JOBS];
        let shown = self.verdict_into(&mut jobs)?;
        let (Shown::LineUp(length) | Shown::Cycle(length)) = shown;
        jobs.truncate(length);
        Ok(match shown {
            Shown::LineUp(_) => Verdict::LineUp(jobs),
            Shown::Cycle(_) => Verdict::Cycle(jobs),
        })
    }

    /// The same into a lent buffer of n places or more; those beyond the answer stay.
    pub fn verdict_into(&self, out: &mut [u32]) -> Result<Shown, Refusal> {
        let mut told = [0; TOLD];
        let code = calls::verdict(
            &self.base,
            &self.spans,
            &self.edges,
            &self.routes,
            &self.times,
            out,
            &mut told,
        );
        Refusal::check(code)?;
        Ok(Shown::of(told[0], told[1]))
    }

    /// The start of each job; zeros while cyclic.
    pub fn starts(&self) -> Result<Vec<u64>, Refusal> {
        let mut starts = vec![0; JOBS];
        let length = self.starts_into(&mut starts)?;
        starts.truncate(length);
        Ok(starts)
    }

    /// The same into a lent buffer of n places or more; answers n.
    pub fn starts_into(&self, out: &mut [u64]) -> Result<usize, Refusal> {
        let mut told = [0; TOLD];
        let code = calls::starts(
            &self.base,
            &self.spans,
            &self.edges,
            &self.routes,
            &self.times,
            out,
            &mut told,
        );
        Refusal::check(code)?;
        Ok(told[0] as usize)
    }
}
