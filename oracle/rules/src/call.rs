//! The public calls and their answers as values, so that lists of them can be made and kept.

use crate::{Block, Load, Move, Moved, Refusal, Report, Score, Store, Verdict};

#[derive(Clone, Debug, PartialEq, Eq)]
pub enum Call {
    Load(Load),
    Reset,
    Retract(u32),
    Put(u32, Vec<u32>),
    Score,
    Verdict { room: usize },
    Starts { room: usize },
    Blocks { owners: Vec<u32>, room: usize },
    Move { owner: u32, step: Move, room: usize },
}

#[derive(Clone, Debug, PartialEq, Eq)]
pub enum Answer {
    /// Of load, reset and retract.
    Change(Score),
    Put(Score, Report),
    /// With the match count.
    Score(Score, usize),
    Verdict(Verdict),
    Starts(Vec<u64>),
    Blocks(Vec<Block>),
    Moved(Moved),
}

impl Store {
    pub fn call(&mut self, call: &Call) -> Result<Answer, Refusal> {
        match call {
            Call::Load(load) => self.load(load).map(Answer::Change),
            Call::Reset => self.reset().map(Answer::Change),
            Call::Retract(owner) => self.retract(*owner).map(Answer::Change),
            Call::Put(owner, entries) => {
                let (change, report) = self.put(*owner, entries)?;
                Ok(Answer::Put(change, report))
            }
            Call::Score => {
                let (score, matches) = self.score()?;
                Ok(Answer::Score(score, matches))
            }
            Call::Verdict { room } => self.verdict(*room).map(Answer::Verdict),
            Call::Starts { room } => self.starts(*room).map(Answer::Starts),
            Call::Blocks { owners, room } => self.blocks(owners, *room).map(Answer::Blocks),
            Call::Move { owner, step, room } => self.moved(*owner, step, *room).map(Answer::Moved),
        }
    }
}
