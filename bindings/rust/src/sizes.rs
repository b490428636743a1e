//! The sizes of document 01, and the fewest words of each slice of a store (docs/LIMITS.md).

/// Jobs of a plan.
pub const JOBS: usize = 512;
/// Owners of a plan.
pub const OWNERS: usize = 64;
/// Pairs of the fixed list.
pub const FIXED: usize = 3_072;
/// Entries of a route argument, and valid entries in force over all owners.
pub const ENTRIES: usize = 1_024;
/// The longest duration.
pub const DURATION: u64 = 1 << 40;
/// The expected owner that means none.
pub const NO_OWNER: u32 = u32::MAX;

/// Words of `base`.
pub const BASE: usize = 6_661;
/// Words of `spans`.
pub const SPANS: usize = 512;
/// Words of `edges`.
pub const EDGES: usize = 13_314;
/// Words of `routes`.
pub const ROUTES: usize = 1_794;
/// Words of `times`.
pub const TIMES: usize = 514;

/// Places of `nums`, for a score, in the [`calls`](crate::calls).
pub const NUMS: usize = 2;
/// Places of `told`, for what else is told, in the [`calls`](crate::calls).
pub const TOLD: usize = 3;
