//! The given Rust behind document 01's calls, in the words of the crate `rules`.
//!
//! The given Rust refuses nothing, so every call here must be one that the rules accept.

mod history;
mod moves;
mod solution;

pub use history::{Given, Kept};
pub use solution::{constraint, Constraint, Solution};
pub use solverforge_core::score::HardSoftScore;
pub use solverforge_scoring::api::constraint_set::IncrementalConstraint;
pub use solverforge_scoring::constraint::list_precedence::view::{KeptParts, Refresh};
pub use solverforge_solver::{Graph, Move as GivenMove};

pub use moves::given_move;

use rules::Score;

pub fn score(score: HardSoftScore) -> Score {
    Score {
        hard: score.hard(),
        soft: score.soft(),
    }
}
