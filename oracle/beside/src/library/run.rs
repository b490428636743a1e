//! Each call on the C interface.

use super::Library;
use notekarip::calls;
#[cfg(feature = "moves")]
use rules::Move;
use rules::{Call, Load};

impl Library {
    /// The call's code.
    pub(super) fn run(&mut self, call: &Call) -> u32 {
        match call {
            Call::Load(load) => self.load(load),
            Call::Reset => calls::reset(
                self.base.slice_mut(),
                self.spans.slice(),
                self.edges.slice(),
                self.routes.slice(),
                self.times.slice(),
                self.nums.array_mut(),
            ),
            Call::Retract(owner) => calls::retract(
                self.base.slice(),
                self.spans.slice(),
                self.edges.slice(),
                self.routes.slice_mut(),
                self.times.slice(),
                *owner,
                self.nums.array_mut(),
            ),
            Call::Put(owner, entries) => calls::put(
                self.base.slice(),
                self.spans.slice(),
                self.edges.slice_mut(),
                self.routes.slice_mut(),
                self.times.slice_mut(),
                *owner,
                entries,
                self.nums.array_mut(),
                self.told.array_mut(),
            ),
            question => self.ask(question),
        }
    }

    fn load(&mut self, load: &Load) -> u32 {
        calls::load(
            self.base.slice_mut(),
            self.spans.slice_mut(),
            self.edges.slice_mut(),
            self.routes.slice_mut(),
            self.times.slice_mut(),
            load.jobs,
            load.owners,
            &load.durations,
            &load.expected,
            &load.from,
            &load.to,
            self.nums.array_mut(),
        )
    }

    /// The calls that only read the store.
    fn ask(&mut self, question: &Call) -> u32 {
        let base = self.base.slice();
        let spans = self.spans.slice();
        let edges = self.edges.slice();
        let routes = self.routes.slice();
        let times = self.times.slice();
        let told = self.told.array_mut();
        match question {
            Call::Score => {
                let nums = self.nums.array_mut();
                calls::score(base, spans, edges, routes, times, nums, told)
            }
            Call::Verdict { .. } => {
                let out = self.jobs.slice_mut();
                calls::verdict(base, spans, edges, routes, times, out, told)
            }
            Call::Starts { .. } => {
                let out = self.starts.slice_mut();
                calls::starts(base, spans, edges, routes, times, out, told)
            }
            #[cfg(feature = "blocks")]
            Call::Blocks { owners, .. } => {
                let out = self.blocks.slice_mut();
                calls::blocks(base, spans, edges, routes, times, owners, out, told)
            }
            #[cfg(feature = "moves")]
            Call::Move { owner, step, .. } => self.ask_move(*owner, step),
            other => panic!("the library has no such call: {other:?}"),
        }
    }

    #[cfg(feature = "moves")]
    fn ask_move(&mut self, owner: u32, step: &Move) -> u32 {
        let b = self.base.slice();
        let s = self.spans.slice();
        let e = self.edges.slice();
        let r = self.routes.slice();
        let t = self.times.slice();
        let out = self.jobs.slice_mut();
        let told = self.told.array_mut();
        match *step {
            Move::ListChange { source, dest } => {
                calls::list_change(b, s, e, r, t, owner, source, dest, out, told)
            }
            Move::SublistChange { start, end, dest } => {
                calls::sublist_change(b, s, e, r, t, owner, start, end, dest, out, told)
            }
            Move::SublistSwap {
                first: (from, to),
                second: (with, until),
            } => calls::sublist_swap(b, s, e, r, t, owner, from, to, with, until, out, told),
            Move::Permutation {
                start,
                end,
                ref list,
            } => calls::permutation(b, s, e, r, t, owner, start, end, list, out, told),
        }
    }
}
