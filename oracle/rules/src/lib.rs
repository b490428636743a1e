//! The rules of document 01 (docs/01-scope.md), written plainly and from that document alone.
//!
//! Everything is worked out anew from the fixed list and the routes in force. Only the stored
//! order of the edge lists is kept along the history, since the visit count rests on it.

mod blocks;
mod call;
mod exchange;
mod graph;
mod limits;
mod lists;
mod load;
mod moves;
mod plan;
mod refusal;
mod report;
mod route;
mod score;
mod store;
mod times;

pub use blocks::Block;
pub use call::{Answer, Call};
pub use exchange::Exchange;
pub use graph::{Edge, Graph};
pub use limits::{DURATION, ENTRIES, FIXED, JOBS, NO_OWNER, OWNERS};
pub use lists::StoredLists;
pub use load::Load;
pub use moves::{Move, Moved};
pub use plan::Plan;
pub use refusal::Refusal;
pub use report::{walk, Report};
pub use route::{Route, Stop};
pub use score::{assignment, Penalty, Score};
pub use store::{Slice, Store, Verdict};
pub use times::{makespan, Times};
