//! The oracle's tests, in one binary so that they are built once.

mod blocks;
mod differences;
mod histories;
mod marked;
mod moves;
mod program;
mod refusals;
mod replay;
mod scratch;
mod sha256;
mod shown;
mod vendor;
mod visits;
