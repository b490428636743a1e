//! A plan scorer: document 01's calls (docs/01-scope.md) over the proved static library.
//!
//! A [`Store`] holds one plan. Document 01's run, job numbers from 0:
//!
//! ```
//! use notekarip::{Load, Owner, Refusal, Report, Score, Store, Verdict};
//!
//! let mut store = Store::new();
//! let loaded = store.load(&Load {
//!     jobs: 4,
//!     owners: 1,
//!     durations: &[1, 1, 5, 7],
//!     from: &[1],
//!     to: &[0],
//!     ..Load::default()
//! })?;
//! assert_eq!(loaded, Score { hard: -4, soft: -7 });
//!
//! let (change, report) = store.put(Owner(0), &[2, 3])?;
//! assert_eq!(change, Score { hard: 2, soft: -5 });
//! assert_eq!(report, Report::Incremental { visits: 1 });
//!
//! let (change, report) = store.put(Owner(0), &[2, 3, 0, 1])?;
//! assert_eq!(change, Score { hard: -2, soft: 12 });
//! assert_eq!(report, Report::CycleFound);
//! assert_eq!(store.score()?, (Score { hard: -4, soft: 0 }, 4));
//! assert_eq!(store.verdict()?, Verdict::Cycle(vec![0, 1]));
//!
//! let (change, report) = store.put(Owner(0), &[])?;
//! assert_eq!(change, Score { hard: 0, soft: -7 });
//! assert_eq!(report, Report::Full);
//! assert_eq!(store.score()?, (Score { hard: -4, soft: -7 }, 5));
//! assert_eq!(store.starts()?, [1, 0, 0, 0]);
//! assert_eq!(store.verdict()?, Verdict::LineUp(vec![1, 0, 2, 3]));
//!
//! assert_eq!(store.retract(Owner(5)), Err(Refusal::Owner));
//! # Ok::<(), Refusal>(())
//! ```
//!
//! [`calls`] has the same calls on slices of the caller's own, of any length and contents.

mod answer;
#[cfg(feature = "blocks")]
mod blocks;
pub mod calls;
#[cfg(feature = "moves")]
mod moves;
mod raw;
mod refusal;
pub mod sizes;
mod store;

pub use answer::{Block, Report, Score, Shown, Verdict};
#[cfg(feature = "moves")]
pub use answer::{Checks, Moved};
#[cfg(feature = "moves")]
pub use moves::Move;
pub use refusal::Refusal;
pub use store::{Load, Owner, Store};
