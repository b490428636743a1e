//! Counted edges, and for each job its successors in stored order.

use crate::Edge;
use std::collections::{BTreeMap, BTreeSet};

#[derive(Clone, Debug, PartialEq, Eq)]
pub struct StoredLists {
    counts: BTreeMap<Edge, usize>,
    successors: Vec<Vec<usize>>,
}

impl StoredLists {
    pub fn new(jobs: usize) -> StoredLists {
        StoredLists {
            counts: BTreeMap::new(),
            successors: vec![Vec::new(); jobs],
        }
    }

    pub fn successors(&self) -> &[Vec<usize>] {
        &self.successors
    }

    pub fn contains(&self, edge: Edge) -> bool {
        self.counts.contains_key(&edge)
    }

    pub fn live(&self) -> BTreeSet<Edge> {
        self.counts.keys().copied().collect()
    }

    /// Yes, if the edge appeared: then its head joins at the end.
    pub fn add(&mut self, edge: Edge) -> bool {
        let count = self.counts.entry(edge).or_insert(0);
        *count += 1;
        let appeared = *count == 1;
        if appeared {
            self.successors[edge.0].push(edge.1);
        }
        appeared
    }

    /// Yes, if the edge vanished: then its head is replaced by the last of its list.
    pub fn remove(&mut self, edge: Edge) -> bool {
        let count = self.counts.get_mut(&edge).expect("a held edge");
        *count -= 1;
        let vanished = *count == 0;
        if vanished {
            self.counts.remove(&edge);
            let list = &mut self.successors[edge.0];
            let place = list.iter().position(|&to| to == edge.1);
            list.swap_remove(place.expect("a live head"));
        }
        vanished
    }
}
