//! The sizes of document 01.

/// Jobs of a plan.
pub const JOBS: usize = 512;
/// Owners of a plan.
pub const OWNERS: usize = 64;
/// Pairs of the fixed list.
pub const FIXED: usize = 3_072;
/// Entries of a route argument, and valid entries in force over all owners.
pub const ENTRIES: usize = 1_024;
/// The longest duration.
pub const DURATION: u64 = 1 << 40;
/// The expected owner that means none.
pub const NO_OWNER: u32 = u32::MAX;
