//! The library's calls on slices of the caller's own: safe for any length and any contents.
//!
//! Each takes the five slices of a store first. It gives 0 if accepted, else document 01's refusal
//! number. Last come the places for the numbers of its answer: `nums` if it returns a score or a
//! score change, `told` if it tells anything else. A refusal from 1 to 11 changes nothing: `nums`
//! is 0 and 0, and all else stays. Places beyond an answer are not touched.
//!
//! ```
//! use notekarip::calls;
//!
//! // A base one word too short is refusal 9, and the score is no score.
//! let (base, spans, edges) = ([0; 6_660], [0; 512], [0; 13_314]);
//! let (routes, times) = ([0; 1_794], [0; 514]);
//! let (mut nums, mut told) = ([7; 2], [7; 3]);
//! let code = calls::score(&base, &spans, &edges, &routes, &times, &mut nums, &mut told);
//! assert_eq!((code, nums, told), (9, [0; 2], [7; 3]));
//! ```

// A call has the parameters of its C function, one for one.
#![allow(clippy::too_many_arguments)]

#[cfg(feature = "blocks")]
use crate::answer::Block;
use crate::raw;
use crate::sizes::{NUMS, TOLD};

/// Calls a C function: `read` and `write` lend a slice as its address and its number of places,
/// `plain` passes a number, or the address of an array of fixed length.
///
/// Every call here is sound: a slice's address is never null, no two lent slices overlap if one is
/// written, and the library is proved safe for any lengths and contents.
macro_rules! call {
    ($function:ident($($ready:expr),*)) => {
        unsafe { raw::$function($($ready),*) }
    };
    ($function:ident($($ready:expr),*) read $slice:ident $($rest:tt)*) => {
        call!($function($($ready,)* $slice.as_ptr(), $slice.len()) $($rest)*)
    };
    ($function:ident($($ready:expr),*) write $slice:ident $($rest:tt)*) => {
        call!($function($($ready,)* $slice.as_mut_ptr(), $slice.len()) $($rest)*)
    };
    ($function:ident($($ready:expr),*) plain $value:ident $($rest:tt)*) => {
        call!($function($($ready,)* $value) $($rest)*)
    };
}

/// Every route empty, none waiting. `nums`: the score.
pub fn load(
    base: &mut [u32],
    spans: &mut [u64],
    edges: &mut [u16],
    routes: &mut [u16],
    times: &mut [u64],
    jobs: u32,
    owners: u32,
    durations: &[u64],
    expected: &[u32],
    from: &[u32],
    to: &[u32],
    nums: &mut [i64; NUMS],
) -> u32 {
    call!(notekarip_load()
        write base write spans write edges write routes write times
        plain jobs plain owners read durations read expected read from read to
        plain nums)
}

/// Not loaded any more. `nums`: 0 and 0.
pub fn reset(
    base: &mut [u32],
    spans: &[u64],
    edges: &[u16],
    routes: &[u16],
    times: &[u64],
    nums: &mut [i64; NUMS],
) -> u32 {
    call!(notekarip_reset()
        write base read spans read edges read routes read times
        plain nums)
}

/// The owner waits. `nums`: 0 and 0.
pub fn retract(
    base: &[u32],
    spans: &[u64],
    edges: &[u16],
    routes: &mut [u16],
    times: &[u64],
    owner: u32,
    nums: &mut [i64; NUMS],
) -> u32 {
    call!(notekarip_retract()
        read base read spans read edges write routes read times
        plain owner plain nums)
}

/// The owner's new route. `nums`: the score change; `told`: the report (0 skipped, 1 full, 2 cycle
/// found, 3 incremental) and the visits.
pub fn put(
    base: &[u32],
    spans: &[u64],
    edges: &mut [u16],
    routes: &mut [u16],
    times: &mut [u64],
    owner: u32,
    entries: &[u32],
    nums: &mut [i64; NUMS],
    told: &mut [u64; TOLD],
) -> u32 {
    call!(notekarip_put()
        read base read spans write edges write routes write times
        plain owner read entries plain nums plain told)
}

/// `nums`: the score; `told`: the match count.
pub fn score(
    base: &[u32],
    spans: &[u64],
    edges: &[u16],
    routes: &[u16],
    times: &[u64],
    nums: &mut [i64; NUMS],
    told: &mut [u64; TOLD],
) -> u32 {
    call!(notekarip_score()
        read base read spans read edges read routes read times
        plain nums plain told)
}

/// The shown line-up or cycle into `out`. `told`: 0 for a line-up, 1 for a cycle, and of how many
/// jobs.
pub fn verdict(
    base: &[u32],
    spans: &[u64],
    edges: &[u16],
    routes: &[u16],
    times: &[u64],
    out: &mut [u32],
    told: &mut [u64; TOLD],
) -> u32 {
    call!(notekarip_verdict()
        read base read spans read edges read routes read times
        write out plain told)
}

/// The start of each job into `out`. `told`: how many.
pub fn starts(
    base: &[u32],
    spans: &[u64],
    edges: &[u16],
    routes: &[u16],
    times: &[u64],
    out: &mut [u64],
    told: &mut [u64; TOLD],
) -> u32 {
    call!(notekarip_starts()
        read base read spans read edges read routes read times
        write out plain told)
}

/// The route after a list change into `out`. `told`: the quick and the full verdict, and the
/// route's length.
#[cfg(feature = "moves")]
pub fn list_change(
    base: &[u32],
    spans: &[u64],
    edges: &[u16],
    routes: &[u16],
    times: &[u64],
    owner: u32,
    source: u32,
    dest: u32,
    out: &mut [u32],
    told: &mut [u64; TOLD],
) -> u32 {
    call!(notekarip_list_change()
        read base read spans read edges read routes read times
        plain owner plain source plain dest write out plain told)
}

/// The same for a sublist change.
#[cfg(feature = "moves")]
pub fn sublist_change(
    base: &[u32],
    spans: &[u64],
    edges: &[u16],
    routes: &[u16],
    times: &[u64],
    owner: u32,
    start: u32,
    end: u32,
    dest: u32,
    out: &mut [u32],
    told: &mut [u64; TOLD],
) -> u32 {
    call!(notekarip_sublist_change()
        read base read spans read edges read routes read times
        plain owner plain start plain end plain dest write out plain told)
}

/// The same for a sublist swap of `a` to `b` with `c` to `d`.
#[cfg(feature = "moves")]
pub fn sublist_swap(
    base: &[u32],
    spans: &[u64],
    edges: &[u16],
    routes: &[u16],
    times: &[u64],
    owner: u32,
    a: u32,
    b: u32,
    c: u32,
    d: u32,
    out: &mut [u32],
    told: &mut [u64; TOLD],
) -> u32 {
    call!(notekarip_sublist_swap()
        read base read spans read edges read routes read times
        plain owner plain a plain b plain c plain d write out plain told)
}

/// The same for a permutation of `start` to `end`.
#[cfg(feature = "moves")]
pub fn permutation(
    base: &[u32],
    spans: &[u64],
    edges: &[u16],
    routes: &[u16],
    times: &[u64],
    owner: u32,
    start: u32,
    end: u32,
    list: &[u32],
    out: &mut [u32],
    told: &mut [u64; TOLD],
) -> u32 {
    call!(notekarip_permutation()
        read base read spans read edges read routes read times
        plain owner plain start plain end read list write out plain told)
}

/// The critical blocks of these owners into `out`. `told`: how many.
#[cfg(feature = "blocks")]
pub fn blocks(
    base: &[u32],
    spans: &[u64],
    edges: &[u16],
    routes: &[u16],
    times: &[u64],
    owners: &[u32],
    out: &mut [Block],
    told: &mut [u64; TOLD],
) -> u32 {
    call!(notekarip_blocks()
        read base read spans read edges read routes read times
        read owners write out plain told)
}
