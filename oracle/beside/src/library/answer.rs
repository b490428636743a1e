//! What an accepted call answered, in the words of the rules.

use super::Library;
use crate::difference::Difference;
use crate::lent::{Lent, Word};
use rules::{Answer, Block, Call, Moved, Report, Score, Verdict};

impl Library {
    pub(super) fn answer(&self, call: &Call) -> Result<Answer, Difference> {
        let told = |place: usize| self.told.slice()[place];
        Ok(match call {
            Call::Load(_) | Call::Reset | Call::Retract(_) => Answer::Change(self.score()),
            Call::Put(..) => Answer::Put(self.score(), report(told(0), told(1))?),
            Call::Score => Answer::Score(self.score(), told(0) as usize),
            Call::Verdict { .. } => {
                let jobs = front(&self.jobs, told(1))?;
                Answer::Verdict(match yes(told(0))? {
                    false => Verdict::LineUp(jobs),
                    true => Verdict::Cycle(jobs),
                })
            }
            Call::Starts { .. } => Answer::Starts(front(&self.starts, told(0))?),
            Call::Blocks { .. } => {
                let blocks = front(&self.blocks, told(0))?;
                Answer::Blocks(blocks.into_iter().map(block).collect())
            }
            Call::Move { .. } => Answer::Moved(Moved {
                quick: yes(told(0))?,
                full: yes(told(1))?,
                route: front(&self.jobs, told(2))?,
            }),
        })
    }

    fn score(&self) -> Score {
        let nums = self.nums.slice();
        Score {
            hard: nums[0],
            soft: nums[1],
        }
    }
}

/// Visits are told with every report, and must be 0 except in the last.
fn report(kind: u64, visits: u64) -> Result<Report, Difference> {
    match (kind, visits) {
        (0, 0) => Ok(Report::Skipped),
        (1, 0) => Ok(Report::Full),
        (2, 0) => Ok(Report::CycleFound),
        (3, visits) => Ok(Report::Incremental(visits as usize)),
        _ => Err(Difference(format!("report {kind} with {visits} visits"))),
    }
}

fn yes(number: u64) -> Result<bool, Difference> {
    Difference::unless(number <= 1, || format!("{number} for yes or no"))?;
    Ok(number == 1)
}

/// The first places of an answer buffer.
fn front<T: Word>(lent: &Lent<T>, length: u64) -> Result<Vec<T>, Difference> {
    let places = lent.slice().get(..length as usize);
    let longer = || Difference(format!("{length} places of {}", lent.slice().len()));
    places.map(<[T]>::to_vec).ok_or_else(longer)
}

fn block(block: notekarip::Block) -> Block {
    Block {
        owner: block.owner,
        first: block.first,
        last: block.last,
        length: block.length,
    }
}
