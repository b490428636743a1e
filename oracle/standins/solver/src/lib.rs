//! Stand-in crate root around the given files of `vendor/solver`, which it includes unchanged.

// Some of the given items are called only by files that are not here.
#![allow(dead_code)]

mod heuristic {
    pub(crate) mod selector {
        pub(crate) mod precedence_route {
            include!(concat!(
                env!("CARGO_MANIFEST_DIR"),
                "/../../vendor/solver/precedence_route.rs"
            ));

            pub(crate) mod view;
        }
    }
}

// The given analysis asks for `super::coordinates`, so both stand at the root.
#[rustfmt::skip]
#[path = "../../../vendor/solver/analysis.rs"]
mod analysis;
mod coordinates;
mod graph;

pub use graph::{Block, Graph, Move};
