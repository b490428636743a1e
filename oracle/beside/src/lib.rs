//! The proved library beside the rules of document 01, and beside the given Rust in speed.

pub mod arguments;
pub mod difference;
pub mod garbage;
pub mod histories;
pub mod large;
pub mod lent;
pub mod library;
pub mod pair;
pub mod rattle;
pub mod spoilt;
pub mod tally;
pub mod watch;
mod words;
