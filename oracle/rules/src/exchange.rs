//! The exchange of routes in a put, and which edges it made appear or vanish.

use crate::{Edge, Plan, Route};
use std::collections::{BTreeMap, BTreeSet};

#[derive(Clone, Debug, Default, PartialEq, Eq)]
pub struct Exchange {
    /// By first place in the new route.
    pub appeared: Vec<Edge>,
    /// Through the owner of the put, by first place in its old route.
    pub vanished: Vec<Edge>,
    /// Through waiting owners in waiting order, each by its route.
    pub vanished_waiting: Vec<Edge>,
}

impl Exchange {
    pub fn is_empty(&self) -> bool {
        self.appeared.is_empty() && self.vanished.is_empty() && self.vanished_waiting.is_empty()
    }

    /// Heads in the order they are queued, each once.
    pub fn seeds(&self) -> Vec<usize> {
        let edges = self.appeared.iter();
        let edges = edges.chain(&self.vanished).chain(&self.vanished_waiting);
        let mut seen = BTreeSet::new();
        let heads = edges.map(|edge| edge.1);
        heads.filter(|&head| seen.insert(head)).collect()
    }
}

impl Plan {
    /// Waiting owners other than this one get empty routes, then this owner gets the new one.
    pub fn exchange(&mut self, owner: usize, route: Route) -> Exchange {
        let mut exchange = Exchange::default();
        for waiting in std::mem::take(&mut self.waiting) {
            if waiting != owner {
                let (vanished, _) = self.replace(waiting, Route::default());
                exchange.vanished_waiting.extend(vanished);
            }
        }
        (exchange.vanished, exchange.appeared) = self.replace(owner, route);
        exchange
    }

    /// Takes vanishing edges before appearing ones; answers both.
    fn replace(&mut self, owner: usize, route: Route) -> (Vec<Edge>, Vec<Edge>) {
        let (old, new) = (self.routes[owner].edges(), route.edges());
        self.routes[owner] = route;
        let mut vanished = surplus(&old, &new);
        vanished.retain(|&edge| self.lists.remove(edge));
        let mut appeared = surplus(&new, &old);
        appeared.retain(|&edge| self.lists.add(edge));
        (vanished, appeared)
    }
}

/// Each edge of `more`, by first place, as often as `more` holds it beyond `less`.
fn surplus(more: &[Edge], less: &[Edge]) -> Vec<Edge> {
    let mut beyond: BTreeMap<Edge, isize> = BTreeMap::new();
    for &edge in more {
        *beyond.entry(edge).or_default() += 1;
    }
    for &edge in less {
        *beyond.entry(edge).or_default() -= 1;
    }
    let mut edges = Vec::new();
    for &edge in more {
        // Taken out at its first place, so that later places add nothing.
        let times = beyond.insert(edge, 0).unwrap_or(0).max(0);
        edges.extend(std::iter::repeat_n(edge, times as usize));
    }
    edges
}
