//! The library and the rules side by side over one history.

use crate::difference::Difference;
use crate::library::{words, Library, Reply};
use crate::words::check_words;
use compare::replay::{answer_line, call_line};
use compare::rng::Rng;
use rules::{Call, Plan, Refusal, Slice, Store};

/// An answer as a line of the replay list.
pub fn reply_line(reply: &Reply) -> String {
    match reply {
        Ok(answer) => answer_line(&Ok(answer.clone())),
        Err(code) => format!("= no {code}"),
    }
}

pub struct Pair {
    library: Library,
    rules: Store,
    calls: Vec<Call>,
}

impl Pair {
    /// On a zeroed store; its slices are longer than they need be once in two.
    pub fn new(rng: &mut Rng) -> Pair {
        let longer = rng.once_in(2);
        let more = std::array::from_fn(|_| if longer { rng.below(9) } else { 0 });
        Pair {
            library: Library::longer(more),
            rules: Store::default(),
            calls: Vec::new(),
        }
    }

    /// Nothing while not loaded.
    pub fn plan(&self) -> Option<&Plan> {
        self.rules.plan()
    }

    /// The call on both sides; a difference tells all calls up to it.
    pub fn call(&mut self, call: Call) -> Result<Reply, Difference> {
        let expected = number(self.rules.call(&call));
        let found = self.library.call(&call);
        self.calls.push(call);
        self.compare("", found, expected)
    }

    /// Every word of a loaded store must be the one that the plan asks for.
    pub fn check_words(&self, plan: &Plan) -> Result<(), Difference> {
        let told = |Difference(what)| Difference(format!("library: {what}\n{}", self.lines()));
        check_words(&self.library, plan).map_err(told)
    }

    /// The call with a slice of the store lent shorter than its constant.
    pub fn call_short(&mut self, rng: &mut Rng, call: &Call) -> Result<Reply, Difference> {
        let slice = Slice::ALL[rng.below(5)];
        let length = match rng.below(3) {
            0 => rng.below(3),
            1 => rng.below(words(slice)),
            _ => words(slice) - 1,
        };
        self.rules.short = Some(slice);
        let expected = number(self.rules.call(call));
        self.rules.short = None;
        self.library.shorten(slice, length);
        let found = self.library.call(call);
        self.library.restore(slice);
        let how = format!("with {length} words of {slice:?}: {call:?}\n");
        self.compare(&how, found, expected)
    }

    fn compare(
        &self,
        how: &str,
        found: Result<Reply, Difference>,
        expected: Reply,
    ) -> Result<Reply, Difference> {
        let what = match found {
            Ok(reply) if reply == expected => return Ok(reply),
            Ok(reply) => format!("library {}", reply_line(&reply)),
            Err(Difference(what)) => format!("library: {what}"),
        };
        let (expected, lines) = (reply_line(&expected), self.lines());
        Err(Difference(format!(
            "{what}\nrules {expected}\n{lines}{how}"
        )))
    }

    /// All calls so far, as lines of the replay list.
    fn lines(&self) -> String {
        let lines = self.calls.iter().map(|call| call_line(None, call) + "\n");
        lines.collect()
    }
}

fn number(reply: Result<rules::Answer, Refusal>) -> Reply {
    reply.map_err(|refusal| u32::from(refusal.number()))
}
