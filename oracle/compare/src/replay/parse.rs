//! Call lines of the replay list back into calls, as a replaying side reads them.

use rules::{Call, Load, Move, Slice};
use std::str::{FromStr, SplitAsciiWhitespace};

pub struct CallLine {
    pub short: Option<Slice>,
    pub call: Call,
}

/// Panics on a line that is no call: the list is ours.
pub fn parse_call(line: &str) -> CallLine {
    let mut fields = Fields(line.split_ascii_whitespace());
    let mut word = fields.word();
    let mut short = None;
    if word == "short" {
        short = Some(Slice::ALL[fields.number::<usize>()]);
        word = fields.word();
    }
    let call = fields.call(word);
    assert!(fields.0.next().is_none(), "more fields than the call has");
    CallLine { short, call }
}

struct Fields<'a>(SplitAsciiWhitespace<'a>);

impl<'a> Fields<'a> {
    fn word(&mut self) -> &'a str {
        self.0.next().expect("a field")
    }

    fn number<T: FromStr>(&mut self) -> T {
        let word = self.word();
        word.parse().ok().expect("a number within its width")
    }

    fn list<T: FromStr>(&mut self) -> Vec<T> {
        let length: usize = self.number();
        (0..length).map(|_| self.number()).collect()
    }

    fn call(&mut self, word: &str) -> Call {
        match word {
            "load" => Call::Load(self.load()),
            "reset" => Call::Reset,
            "cut" => Call::Retract(self.number()),
            "put" => Call::Put(self.number(), self.list()),
            "score" => Call::Score,
            "verdict" => Call::Verdict {
                room: self.number(),
            },
            "starts" => Call::Starts {
                room: self.number(),
            },
            "blocks" => {
                let room = self.number();
                let owners = self.list();
                Call::Blocks { owners, room }
            }
            _ => self.move_call(word),
        }
    }

    fn load(&mut self) -> Load {
        Load {
            jobs: self.number(),
            owners: self.number(),
            durations: self.list(),
            expected: self.list(),
            from: self.list(),
            to: self.list(),
        }
    }

    fn move_call(&mut self, word: &str) -> Call {
        let owner = self.number();
        if word == "permute" {
            let (start, end) = (self.number(), self.number());
            let room = self.number();
            let list = self.list();
            let step = Move::Permutation { start, end, list };
            return Call::Move { owner, step, room };
        }
        let step = match word {
            "change" => Move::ListChange {
                source: self.number(),
                dest: self.number(),
            },
            "sublist" => Move::SublistChange {
                start: self.number(),
                end: self.number(),
                dest: self.number(),
            },
            "swap" => Move::SublistSwap {
                first: (self.number(), self.number()),
                second: (self.number(), self.number()),
            },
            other => panic!("no call: {other}"),
        };
        let room = self.number();
        Call::Move { owner, step, room }
    }
}
