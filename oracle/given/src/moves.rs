//! The four moves and both checks of the given Rust.

use crate::{Given, GivenMove};
use rules::{Move, Moved};

impl Given {
    /// Nothing, if the given Rust stages nothing; it panics on some bad positions.
    pub fn moved(&self, owner: u32, step: &Move) -> Option<Moved> {
        let owner = owner as usize;
        let step = given_move(step);
        let mut graph = self.solution().graph();
        let route = graph.moved(owner, &step)?;
        Some(Moved {
            quick: graph.quick_check(owner, &step),
            full: graph.full_check(owner, &step),
            route: route.into_iter().map(|job| job as u32).collect(),
        })
    }
}

/// The same move in the given Rust's numbers.
pub fn given_move(step: &Move) -> GivenMove {
    let place = |position: u32| position as usize;
    match *step {
        Move::ListChange { source, dest } => GivenMove::ListChange(place(source), place(dest)),
        Move::SublistChange { start, end, dest } => {
            GivenMove::SublistChange(place(start), place(end), place(dest))
        }
        Move::SublistSwap {
            first: (a, b),
            second: (c, d),
        } => GivenMove::SublistSwap(place(a), place(b), place(c), place(d)),
        Move::Permutation {
            start,
            end,
            ref list,
        } => {
            let list = list.iter().map(|&from| place(from)).collect();
            GivenMove::Permutation(place(start), place(end), list)
        }
    }
}
