//! The proved library behind the rules' calls, on lent words that are watched.

mod answer;
mod run;
mod written;

use crate::difference::Difference;
use crate::lent::Lent;
use notekarip::sizes::{BASE, EDGES, NUMS, ROUTES, SPANS, TIMES, TOLD};
use notekarip::Block;
use rules::{Answer, Call, Slice};
use written::Written;

/// An answer, or the code that is none: a refusal's number.
pub type Reply = Result<Answer, u32>;

/// The greatest code that a call gives: the store holds what no calls could have left.
pub const BAD_STORE: u32 = 12;

/// The fewest words of a slice of the store.
pub fn words(slice: Slice) -> usize {
    match slice {
        Slice::Base => BASE,
        Slice::Spans => SPANS,
        Slice::Edges => EDGES,
        Slice::Routes => ROUTES,
        Slice::Times => TIMES,
    }
}

/// A store and answer buffers, as a C caller lends them.
#[derive(Clone)]
pub struct Library {
    pub base: Lent<u32>,
    pub spans: Lent<u64>,
    pub edges: Lent<u16>,
    pub routes: Lent<u16>,
    pub times: Lent<u64>,
    nums: Lent<i64>,
    told: Lent<u64>,
    jobs: Lent<u32>,
    starts: Lent<u64>,
    blocks: Lent<Block>,
}

impl Default for Library {
    fn default() -> Library {
        Library::longer([0; 5])
    }
}

impl Library {
    /// A zeroed store whose slices have more words than they need.
    pub fn longer(more: [usize; 5]) -> Library {
        let [base, spans, edges, routes, times] = more;
        Library {
            base: Lent::zeroed(BASE, base),
            spans: Lent::zeroed(SPANS, spans),
            edges: Lent::zeroed(EDGES, edges),
            routes: Lent::zeroed(ROUTES, routes),
            times: Lent::zeroed(TIMES, times),
            nums: Lent::zeroed(NUMS, 0),
            told: Lent::zeroed(TOLD, 0),
            jobs: Lent::zeroed(0, 0),
            starts: Lent::zeroed(0, 0),
            blocks: Lent::zeroed(0, 0),
        }
    }

    /// Whether the library has this call.
    pub fn has(call: &Call) -> bool {
        match call {
            Call::Move { .. } => cfg!(feature = "moves"),
            Call::Blocks { .. } => cfg!(feature = "blocks"),
            _ => true,
        }
    }

    /// Lends a slice of the store with so many words, as far as it has them.
    pub fn shorten(&mut self, slice: Slice, length: usize) {
        match slice {
            Slice::Base => self.base.shorten(length),
            Slice::Spans => self.spans.shorten(length),
            Slice::Edges => self.edges.shorten(length),
            Slice::Routes => self.routes.shorten(length),
            Slice::Times => self.times.shorten(length),
        }
    }

    /// Lends all words again that a slice of the store has.
    pub fn restore(&mut self, slice: Slice) {
        self.shorten(slice, usize::MAX);
    }

    /// A difference, if the call touches what it must not, gives an unknown code, or is refused and
    /// returns a change.
    pub fn call(&mut self, call: &Call) -> Result<Reply, Difference> {
        self.nums.room(NUMS);
        self.told.room(TOLD);
        self.lend_answer(call);
        self.mark();
        let code = self.run(call);
        Difference::unless(code <= BAD_STORE, || format!("code {code}"))?;
        let written = Written::by(call, code, self);
        self.check_kept(&written, code)?;
        if code == 0 {
            return self.answer(call).map(Ok);
        }
        let changes = self.nums.slice()[..written.nums]
            .iter()
            .any(|&part| part != 0);
        Difference::unless(!changes, || format!("code {code}, and a change of score"))?;
        Ok(Err(code))
    }

    fn lend_answer(&mut self, call: &Call) {
        match *call {
            Call::Verdict { room } | Call::Move { room, .. } => self.jobs.room(room),
            Call::Starts { room } => self.starts.room(room),
            Call::Blocks { room, .. } => self.blocks.room(room),
            _ => {}
        }
    }

    fn mark(&mut self) {
        self.base.mark();
        self.spans.mark();
        self.edges.mark();
        self.routes.mark();
        self.times.mark();
        self.nums.mark();
        self.told.mark();
        self.jobs.mark();
        self.starts.mark();
        self.blocks.mark();
    }

    fn check_kept(&self, written: &Written, code: u32) -> Result<(), Difference> {
        for (name, kept) in [
            ("base", self.base.kept_beyond(written.base)),
            ("spans", self.spans.kept_beyond(written.spans)),
            ("edges", self.edges.kept_beyond(written.edges)),
            ("routes", self.routes.kept_beyond(written.routes)),
            ("times", self.times.kept_beyond(written.times)),
            ("nums", self.nums.kept_beyond(written.nums)),
            ("told", self.told.kept_beyond(written.told)),
            ("jobs", self.jobs.kept_beyond(written.jobs)),
            ("starts", self.starts.kept_beyond(written.starts)),
            ("blocks", self.blocks.kept_beyond(written.blocks)),
        ] {
            let words = || format!("code {code}, and a word of {name} changed that must stay");
            Difference::unless(kept, words)?;
        }
        Ok(())
    }
}
