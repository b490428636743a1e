//! What the calls answer.

/// At or below zero as a score; of either sign as a score change.
#[derive(Clone, Copy, Debug, Default, PartialEq, Eq, Hash)]
pub struct Score {
    pub hard: i64,
    pub soft: i64,
}

impl Score {
    pub(crate) fn of(nums: [i64; 2]) -> Score {
        let [hard, soft] = nums;
        Score { hard, soft }
    }
}

/// What a put did to the times.
#[derive(Clone, Copy, Debug, PartialEq, Eq, Hash)]
pub enum Report {
    /// No edge appeared or vanished.
    Skipped,
    /// Cyclic before: all times anew.
    Full,
    /// Cyclic from now on.
    CycleFound,
    /// Only the starts that could change, with the steps of document 01's walk.
    Incremental { visits: u64 },
}

impl Report {
    /// By the numbers of the C interface.
    pub(crate) fn of(kind: u64, visits: u64) -> Report {
        match kind {
            0 => Report::Skipped,
            1 => Report::Full,
            2 => Report::CycleFound,
            3 => Report::Incremental { visits },
            _ => unreachable!("a put tells a report of 0 to 3"),
        }
    }
}

/// The shown line-up, or the shown cycle.
#[derive(Clone, Debug, PartialEq, Eq, Hash)]
pub enum Verdict {
    LineUp(Vec<u32>),
    Cycle(Vec<u32>),
}

/// What was written into a verdict's answer buffer, and how many jobs.
#[derive(Clone, Copy, Debug, PartialEq, Eq, Hash)]
pub enum Shown {
    LineUp(usize),
    Cycle(usize),
}

impl Shown {
    /// By the numbers of the C interface.
    pub(crate) fn of(cyclic: u64, jobs: u64) -> Shown {
        match cyclic {
            0 => Shown::LineUp(jobs as usize),
            _ => Shown::Cycle(jobs as usize),
        }
    }
}

/// The new route of a move and both verdicts; yes means a cycle.
#[cfg(feature = "moves")]
#[derive(Clone, Debug, PartialEq, Eq, Hash)]
pub struct Moved {
    pub quick: bool,
    pub full: bool,
    pub route: Vec<u32>,
}

/// Both verdicts of a move, and the length of the route in the answer buffer.
#[cfg(feature = "moves")]
#[derive(Clone, Copy, Debug, PartialEq, Eq, Hash)]
pub struct Checks {
    pub quick: bool,
    pub full: bool,
    pub length: usize,
}

/// A critical block: its owner, its first and last place (inclusive), the route's length.
/// The calls that answer it are there with the feature `blocks`.
#[repr(C)]
#[derive(Clone, Copy, Debug, Default, PartialEq, Eq, Hash)]
pub struct Block {
    pub owner: u32,
    pub first: u32,
    pub last: u32,
    pub length: u32,
}
