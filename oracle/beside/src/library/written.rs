//! How many places of each lent slice a call may change.

use super::{Library, BAD_STORE};
use notekarip::sizes::{BASE, EDGES, ROUTES, SPANS, TIMES};
use rules::Call;

#[derive(Default)]
pub struct Written {
    pub base: usize,
    pub spans: usize,
    pub edges: usize,
    pub routes: usize,
    pub times: usize,
    pub jobs: usize,
    pub starts: usize,
    pub blocks: usize,
    pub nums: usize,
    pub told: usize,
}

impl Written {
    /// By a call that gave this code, its numbers being in the library's `told`.
    pub fn by(call: &Call, code: u32, library: &Library) -> Written {
        match code {
            0 => accepted(call, library.told.slice()),
            BAD_STORE => free(call),
            _ => refused(call),
        }
    }
}

fn accepted(call: &Call, told: &[u64]) -> Written {
    let (nums, tells) = numbers(call);
    let mut written = Written {
        nums,
        told: tells,
        ..in_store(call)
    };
    let told = |place: usize| told[place] as usize;
    match call {
        Call::Verdict { .. } => written.jobs = told(1),
        Call::Starts { .. } => written.starts = told(0),
        Call::Blocks { .. } => written.blocks = told(0),
        Call::Move { .. } => written.jobs = told(2),
        _ => {}
    }
    written
}

/// Nothing but the change of score, which is zero.
fn refused(call: &Call) -> Written {
    Written {
        nums: numbers(call).0,
        ..Written::default()
    }
}

/// What 12 leaves in store and answer buffer is free.
fn free(call: &Call) -> Written {
    Written {
        jobs: usize::MAX,
        starts: usize::MAX,
        blocks: usize::MAX,
        nums: numbers(call).0,
        ..in_store(call)
    }
}

/// The words of the store that a call writes.
fn in_store(call: &Call) -> Written {
    let none = Written::default();
    match call {
        Call::Load(_) => Written {
            base: BASE,
            spans: SPANS,
            edges: EDGES,
            routes: ROUTES,
            times: TIMES,
            ..none
        },
        Call::Reset => Written { base: 1, ..none },
        Call::Retract(_) => Written {
            routes: ROUTES,
            ..none
        },
        Call::Put(..) => Written {
            edges: EDGES,
            routes: ROUTES,
            times: TIMES,
            ..none
        },
        _ => none,
    }
}

/// How many numbers an accepted call answers, in `nums` and in `told`.
fn numbers(call: &Call) -> (usize, usize) {
    match call {
        Call::Load(_) | Call::Reset | Call::Retract(_) => (2, 0),
        Call::Put(..) => (2, 2),
        Call::Score => (2, 1),
        Call::Verdict { .. } => (0, 2),
        Call::Starts { .. } | Call::Blocks { .. } => (0, 1),
        Call::Move { .. } => (0, 3),
    }
}
