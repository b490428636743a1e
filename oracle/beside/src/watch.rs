//! Ends a run in which a call does not end.

use std::process::exit;
use std::sync::atomic::{AtomicU64, Ordering};
use std::thread::{sleep, spawn};
use std::time::Duration;

/// Far longer than any call takes.
const LIMIT: Duration = Duration::from_secs(30);

static CALL: AtomicU64 = AtomicU64::new(0);

/// The number of the call that is about to be made.
pub fn begins(call: u64) {
    CALL.store(call, Ordering::Relaxed);
}

/// Looks at the number from time to time; if it stays the same, the run has failed.
pub fn watch() {
    spawn(|| loop {
        let before = CALL.load(Ordering::Relaxed);
        sleep(LIMIT);
        if CALL.load(Ordering::Relaxed) == before {
            println!("call {before} has not ended within {LIMIT:?}");
            exit(1);
        }
    });
}
