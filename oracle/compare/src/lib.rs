//! The given Rust and the plain rules side by side: comparisons, the text program, the replay list.

pub mod cases;
pub mod desk;
pub mod histories;
pub mod inputs;
pub mod lines;
pub mod marked;
pub mod model;
pub mod program;
pub mod random;
pub mod replay;
pub mod rng;
pub mod side_by_side;
pub mod workloads;
