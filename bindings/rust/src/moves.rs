//! The four route moves with both checks.

use crate::answer::{Checks, Moved};
use crate::calls;
use crate::refusal::Refusal;
use crate::sizes::{ENTRIES, TOLD};
use crate::store::{Owner, Store};

/// A move within a route; positions as document 01 names them.
#[derive(Clone, Copy, Debug, PartialEq, Eq, Hash)]
pub enum Move<'a> {
    ListChange {
        source: u32,
        dest: u32,
    },
    SublistChange {
        start: u32,
        end: u32,
        dest: u32,
    },
    SublistSwap {
        first: (u32, u32),
        second: (u32, u32),
    },
    Permutation {
        start: u32,
        end: u32,
        list: &'a [u32],
    },
}

impl Store {
    /// The new route and both verdicts; the store stays.
    ///
    /// ```
    /// use notekarip::{Load, Move, Moved, Owner, Store};
    ///
    /// let mut store = Store::new();
    /// let durations = [3, 4];
    /// store.load(&Load { jobs: 2, owners: 1, durations: &durations, ..Load::default() })?;
    /// store.put(Owner(0), &[0, 1])?;
    /// let moved = store.moved(Owner(0), Move::ListChange { source: 0, dest: 2 })?;
    /// assert_eq!(moved, Moved { quick: false, full: false, route: vec![1, 0] });
    /// # Ok::<(), notekarip::Refusal>(())
    /// ```
    pub fn moved(&self, owner: Owner, step: Move<'_>) -> Result<Moved, Refusal> {
        let mut route = vec![0; ENTRIES];
        let Checks {
            quick,
            full,
            length,
        } = self.moved_into(owner, step, &mut route)?;
        route.truncate(length);
        Ok(Moved { quick, full, route })
    }

    /// The same into a lent buffer with a place for each entry of the route.
    pub fn moved_into(
        &self,
        owner: Owner,
        step: Move<'_>,
        out: &mut [u32],
    ) -> Result<Checks, Refusal> {
        let mut told = [0; TOLD];
        let (base, spans, edges) = (&self.base, &self.spans, &self.edges);
        let (routes, times) = (&self.routes, &self.times);
        let code = match step {
            Move::ListChange { source, dest } => calls::list_change(
                base, spans, edges, routes, times, owner.0, source, dest, out, &mut told,
            ),
            Move::SublistChange { start, end, dest } => calls::sublist_change(
                base, spans, edges, routes, times, owner.0, start, end, dest, out, &mut told,
            ),
            Move::SublistSwap {
                first: (a, b),
                second: (c, d),
            } => calls::sublist_swap(
                base, spans, edges, routes, times, owner.0, a, b, c, d, out, &mut told,
            ),
            Move::Permutation { start, end, list } => calls::permutation(
                base, spans, edges, routes, times, owner.0, start, end, list, out, &mut told,
            ),
        };
        Refusal::check(code)?;
        let [quick, full, length] = told;
        Ok(Checks {
            quick: quick != 0,
            full: full != 0,
            length: length as usize,
        })
    }
}
