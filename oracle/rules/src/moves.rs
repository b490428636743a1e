//! The four route moves and both move checks.

use crate::{Edge, Graph, Plan};
use std::collections::BTreeSet;

#[derive(Clone, Debug, PartialEq, Eq)]
pub enum Move {
    ListChange {
        source: u32,
        dest: u32,
    },
    SublistChange {
        start: u32,
        end: u32,
        dest: u32,
    },
    SublistSwap {
        first: (u32, u32),
        second: (u32, u32),
    },
    Permutation {
        start: u32,
        end: u32,
        list: Vec<u32>,
    },
}

/// A move's answer: the new route and both verdicts, yes meaning a cycle.
#[derive(Clone, Debug, PartialEq, Eq)]
pub struct Moved {
    pub quick: bool,
    pub full: bool,
    pub route: Vec<u32>,
}

impl Move {
    /// The new route; nothing if the positions are bad.
    pub fn apply(&self, route: &[usize]) -> Option<Vec<usize>> {
        let place = |position: &u32| *position as usize;
        match self {
            Move::ListChange { source, dest } => list_change(route, place(source), place(dest)),
            Move::SublistChange { start, end, dest } => {
                sublist_change(route, place(start), place(end), place(dest))
            }
            Move::SublistSwap { first, second } => {
                let range = |ends: &(u32, u32)| (place(&ends.0), place(&ends.1));
                sublist_swap(route, range(first), range(second))
            }
            Move::Permutation { start, end, list } => {
                let list: Vec<usize> = list.iter().map(place).collect();
                permutation(route, place(start), place(end), &list)
            }
        }
    }
}

fn list_change(route: &[usize], source: usize, dest: usize) -> Option<Vec<usize>> {
    if source >= route.len() || dest > route.len() {
        return None;
    }
    let mut new = route.to_vec();
    let job = new.remove(source);
    new.insert(if dest > source { dest - 1 } else { dest }, job);
    Some(new)
}

fn sublist_change(route: &[usize], start: usize, end: usize, dest: usize) -> Option<Vec<usize>> {
    if !(start <= end && end <= route.len() && dest <= route.len() - (end - start)) {
        return None;
    }
    let rest = [&route[..start], &route[end..]].concat();
    Some([&rest[..dest], &route[start..end], &rest[dest..]].concat())
}

fn sublist_swap(
    route: &[usize],
    first: (usize, usize),
    second: (usize, usize),
) -> Option<Vec<usize>> {
    let (left, right) = if second.0 < first.0 {
        (second, first)
    } else {
        (first, second)
    };
    if left.0 > left.1 || right.0 > right.1 || left.1 > right.0 || right.1 > route.len() {
        return None;
    }
    let parts = [
        &route[..left.0],
        &route[right.0..right.1],
        &route[left.1..right.0],
        &route[left.0..left.1],
        &route[right.1..],
    ];
    Some(parts.concat())
}

fn permutation(route: &[usize], start: usize, end: usize, list: &[usize]) -> Option<Vec<usize>> {
    if !(start <= end && end <= route.len()) {
        return None;
    }
    let mut sorted = list.to_vec();
    sorted.sort();
    if !sorted.into_iter().eq(0..end - start) {
        return None;
    }
    let window: Vec<usize> = list.iter().map(|&from| route[start + from]).collect();
    Some([&route[..start], &window, &route[end..]].concat())
}

impl Plan {
    /// Both verdicts on an unbroken route that becomes `new`.
    pub(crate) fn checks(&self, old: &[usize], new: &[usize]) -> (bool, bool) {
        let kept = self.kept_in_move(old, new);
        let added = &neighbours(new) - &neighbours(old);
        let on = Graph::new(self.jobs, &(&kept | &added));
        let fresh = &added - &kept;
        let quick = fresh.iter().any(|&(from, to)| on.reaches(to, from));
        (quick, on.cyclic())
    }

    /// The live edges, less the removed unfixed ones; the checks agree if they hold no cycle.
    pub fn kept_in_move(&self, old: &[usize], new: &[usize]) -> BTreeSet<Edge> {
        let removed = &neighbours(old) - &neighbours(new);
        let fixed: BTreeSet<Edge> = self.fixed_edges().into_iter().collect();
        &self.live() - &(&removed - &fixed)
    }
}

fn neighbours(route: &[usize]) -> BTreeSet<Edge> {
    route.windows(2).map(|pair| (pair[0], pair[1])).collect()
}
