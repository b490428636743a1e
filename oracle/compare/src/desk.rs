//! Something that answers calls: the rules, or the given Rust with our refusals before it.

use given::Given;
use rules::{Answer, Call, Refusal, Store};
use std::panic::{catch_unwind, AssertUnwindSafe};

#[derive(Clone, Debug, PartialEq, Eq)]
pub enum Response {
    Answer(Answer),
    Refused(Refusal),
    /// Only of the given Rust, on a move that the rules refuse.
    Panicked,
    /// Only of the given Rust, on a swap that it does not stage.
    NotStaged,
}

pub trait Desk {
    fn call(&mut self, call: &Call) -> Response;
}

impl Desk for Store {
    fn call(&mut self, call: &Call) -> Response {
        response(Store::call(self, call))
    }
}

fn response(reply: Result<Answer, Refusal>) -> Response {
    match reply {
        Ok(answer) => Response::Answer(answer),
        Err(refusal) => Response::Refused(refusal),
    }
}

/// The rules beside it give the refusals, the line-up and the cycle, which the given Rust lacks.
#[derive(Default)]
pub struct GivenDesk {
    rules: Store,
    given: Option<Given>,
}

impl Desk for GivenDesk {
    fn call(&mut self, call: &Call) -> Response {
        match (self.rules.call(call), call) {
            (Ok(answer), _) => Response::Answer(self.answer(call, answer)),
            // A bad move is asked all the same: what becomes of it is a difference.
            (Err(Refusal::Positions | Refusal::InvalidEntry), Call::Move { owner, step, .. }) => {
                self.bad_move(*owner, step)
            }
            (Err(refusal), _) => Response::Refused(refusal),
        }
    }
}

impl GivenDesk {
    fn answer(&mut self, call: &Call, ours: Answer) -> Answer {
        if let Call::Load(load) = call {
            let (given, score) = Given::load(load);
            self.given = Some(given);
            return Answer::Change(score);
        }
        let Some(given) = self.given.as_mut() else {
            return ours;
        };
        match (call, ours) {
            (Call::Retract(owner), _) => Answer::Change(given.retract(*owner)),
            (Call::Put(owner, entries), Answer::Put(_, report)) => {
                Answer::Put(given.put(*owner, entries).0, report)
            }
            (Call::Score, _) => Answer::Score(given.kept().score, given.kept().matches),
            (Call::Starts { .. }, _) => {
                let starts = given.kept().starts;
                Answer::Starts(starts.into_iter().map(|start| start as u64).collect())
            }
            (Call::Blocks { owners, .. }, _) => Answer::Blocks(given.blocks(owners)),
            (Call::Move { owner, step, .. }, _) => {
                Answer::Moved(given.moved(*owner, step).expect("an accepted move"))
            }
            (_, ours) => ours,
        }
    }

    fn bad_move(&self, owner: u32, step: &rules::Move) -> Response {
        let given = self.given.as_ref().expect("loaded");
        match catch_unwind(AssertUnwindSafe(|| given.moved(owner, step))) {
            Ok(Some(moved)) => Response::Answer(Answer::Moved(moved)),
            Ok(None) => Response::NotStaged,
            Err(_) => Response::Panicked,
        }
    }
}
