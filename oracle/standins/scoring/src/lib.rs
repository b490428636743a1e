//! Stand-in crate root around the given files of `vendor/scoring`, which it includes unchanged.

// Some of the given items are called only by files that are not here.
#![allow(dead_code)]

pub mod api {
    pub mod constraint_set {
        use solverforge_core::ConstraintRef;

        pub trait SingleConstraint {}

        pub trait IncrementalConstraint<S, Sc>: Send + Sync {
            fn evaluate(&self, solution: &S) -> Sc;
            fn match_count(&self, solution: &S) -> usize;
            fn initialize(&mut self, solution: &S) -> Sc;
            fn on_insert(&mut self, solution: &S, entity: usize, descriptor: usize) -> Sc;
            fn on_retract(&mut self, solution: &S, entity: usize, descriptor: usize) -> Sc;
            fn reset(&mut self);
            fn constraint_ref(&self) -> &ConstraintRef;
            fn is_hard(&self) -> bool;
        }
    }
}

pub mod constraint {
    pub mod list_precedence {
        include!(concat!(
            env!("CARGO_MANIFEST_DIR"),
            "/../../vendor/scoring/list_precedence.rs"
        ));

        pub mod view;
    }
}
