//! A route in force: its stored entries, the breaks between them and its invalid count.

use crate::Edge;

#[derive(Clone, Copy, Debug, PartialEq, Eq)]
pub struct Stop {
    pub job: usize,
    /// Joined to the stop before: no invalid entry came between, and there is one before.
    pub joined: bool,
}

#[derive(Clone, Debug, Default, PartialEq, Eq)]
pub struct Route {
    pub stops: Vec<Stop>,
    pub invalid: usize,
}

impl Route {
    /// An entry of `jobs` or more is counted, not stored, and breaks the chain.
    pub fn read(entries: &[u32], jobs: usize) -> Route {
        let mut route = Route::default();
        let mut joined = false;
        for &entry in entries {
            let job = entry as usize;
            if job < jobs {
                route.stops.push(Stop { job, joined });
                joined = true;
            } else {
                route.invalid += 1;
                joined = false;
            }
        }
        route
    }

    pub fn len(&self) -> usize {
        self.stops.len()
    }

    pub fn is_empty(&self) -> bool {
        self.stops.is_empty()
    }

    pub fn jobs(&self) -> Vec<usize> {
        self.stops.iter().map(|stop| stop.job).collect()
    }

    /// Each two neighbouring valid entries, unbroken, give an edge.
    pub fn edges(&self) -> Vec<Edge> {
        self.stops
            .windows(2)
            .filter(|pair| pair[1].joined)
            .map(|pair| (pair[0].job, pair[1].job))
            .collect()
    }
}
