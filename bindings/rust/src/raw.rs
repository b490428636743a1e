//! The C functions of libcapi.a. A slice is its address, never null, and its number of places; an
//! array of fixed length is its address alone.

#[cfg(feature = "blocks")]
use crate::answer::Block;
use crate::sizes::{NUMS, TOLD};

extern "C" {
    pub fn notekarip_load(
        base: *mut u32,
        base_len: usize,
        spans: *mut u64,
        spans_len: usize,
        edges: *mut u16,
        edges_len: usize,
        routes: *mut u16,
        routes_len: usize,
        times: *mut u64,
        times_len: usize,
        jobs: u32,
        owners: u32,
        durations: *const u64,
        durations_len: usize,
        expected: *const u32,
        expected_len: usize,
        from: *const u32,
        from_len: usize,
        to: *const u32,
        to_len: usize,
        nums: *mut [i64; NUMS],
    ) -> u32;

    pub fn notekarip_reset(
        base: *mut u32,
        base_len: usize,
        spans: *const u64,
        spans_len: usize,
        edges: *const u16,
        edges_len: usize,
        routes: *const u16,
        routes_len: usize,
        times: *const u64,
        times_len: usize,
        nums: *mut [i64; NUMS],
    ) -> u32;

    pub fn notekarip_retract(
        base: *const u32,
        base_len: usize,
        spans: *const u64,
        spans_len: usize,
        edges: *const u16,
        edges_len: usize,
        routes: *mut u16,
        routes_len: usize,
        times: *const u64,
        times_len: usize,
        owner: u32,
        nums: *mut [i64; NUMS],
    ) -> u32;

    pub fn notekarip_put(
        base: *const u32,
        base_len: usize,
        spans: *const u64,
        spans_len: usize,
        edges: *mut u16,
        edges_len: usize,
        routes: *mut u16,
        routes_len: usize,
        times: *mut u64,
        times_len: usize,
        owner: u32,
        entries: *const u32,
        entries_len: usize,
        nums: *mut [i64; NUMS],
        told: *mut [u64; TOLD],
    ) -> u32;

    pub fn notekarip_score(
        base: *const u32,
        base_len: usize,
        spans: *const u64,
        spans_len: usize,
        edges: *const u16,
        edges_len: usize,
        routes: *const u16,
        routes_len: usize,
        times: *const u64,
        times_len: usize,
        nums: *mut [i64; NUMS],
        told: *mut [u64; TOLD],
    ) -> u32;

    pub fn notekarip_verdict(
        base: *const u32,
        base_len: usize,
        spans: *const u64,
        spans_len: usize,
        edges: *const u16,
        edges_len: usize,
        routes: *const u16,
        routes_len: usize,
        times: *const u64,
        times_len: usize,
        out: *mut u32,
        out_len: usize,
        told: *mut [u64; TOLD],
    ) -> u32;

    pub fn notekarip_starts(
        base: *const u32,
        base_len: usize,
        spans: *const u64,
        spans_len: usize,
        edges: *const u16,
        edges_len: usize,
        routes: *const u16,
        routes_len: usize,
        times: *const u64,
        times_len: usize,
        out: *mut u64,
        out_len: usize,
        told: *mut [u64; TOLD],
    ) -> u32;

    #[cfg(feature = "moves")]
    pub fn notekarip_list_change(
        base: *const u32,
        base_len: usize,
        spans: *const u64,
        spans_len: usize,
        edges: *const u16,
        edges_len: usize,
        routes: *const u16,
        routes_len: usize,
        times: *const u64,
        times_len: usize,
        owner: u32,
        source: u32,
        dest: u32,
        out: *mut u32,
        out_len: usize,
        told: *mut [u64; TOLD],
    ) -> u32;

    #[cfg(feature = "moves")]
    pub fn notekarip_sublist_change(
        base: *const u32,
        base_len: usize,
        spans: *const u64,
        spans_len: usize,
        edges: *const u16,
        edges_len: usize,
        routes: *const u16,
        routes_len: usize,
        times: *const u64,
        times_len: usize,
        owner: u32,
        start: u32,
        end: u32,
        dest: u32,
        out: *mut u32,
        out_len: usize,
        told: *mut [u64; TOLD],
    ) -> u32;

    #[cfg(feature = "moves")]
    pub fn notekarip_sublist_swap(
        base: *const u32,
        base_len: usize,
        spans: *const u64,
        spans_len: usize,
        edges: *const u16,
        edges_len: usize,
        routes: *const u16,
        routes_len: usize,
        times: *const u64,
        times_len: usize,
        owner: u32,
        a: u32,
        b: u32,
        c: u32,
        d: u32,
        out: *mut u32,
        out_len: usize,
        told: *mut [u64; TOLD],
    ) -> u32;

    #[cfg(feature = "moves")]
    pub fn notekarip_permutation(
        base: *const u32,
        base_len: usize,
        spans: *const u64,
        spans_len: usize,
        edges: *const u16,
        edges_len: usize,
        routes: *const u16,
        routes_len: usize,
        times: *const u64,
        times_len: usize,
        owner: u32,
        start: u32,
        end: u32,
        list: *const u32,
        list_len: usize,
        out: *mut u32,
        out_len: usize,
        told: *mut [u64; TOLD],
    ) -> u32;

    #[cfg(feature = "blocks")]
    pub fn notekarip_blocks(
        base: *const u32,
        base_len: usize,
        spans: *const u64,
        spans_len: usize,
        edges: *const u16,
        edges_len: usize,
        routes: *const u16,
        routes_len: usize,
        times: *const u64,
        times_len: usize,
        owners: *const u32,
        owners_len: usize,
        out: *mut Block,
        out_len: usize,
        told: *mut [u64; TOLD],
    ) -> u32;
}
