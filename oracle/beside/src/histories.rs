//! Random histories on the library and on the rules.

use crate::difference::Difference;
use crate::large;
use crate::library::Library;
use crate::pair::Pair;
use crate::spoilt::{early, spoilt};
use crate::tally::Tally;
use compare::random::{question, Setting, Shape};
use compare::rng::Rng;
use rules::Call;

/// One in this many histories has 512 jobs and 64 owners at random, and one a workload of them.
const LARGE: u64 = 400;

/// History `number` of a seed: tiny, small and wide ones in turn, a large one now and then.
pub fn run(seed: u64, number: u64, tally: &mut Tally) -> Result<(), Difference> {
    let mut rng = Rng::new(seed.wrapping_mul(1_000_003).wrapping_add(number));
    let mut played = Played::new(&mut rng, tally);
    match number % LARGE {
        199 => large::history(&mut rng, &mut played),
        399 => played.plan(&mut rng, Shape::Large),
        other => {
            let shape = [Shape::Tiny, Shape::Small, Shape::Tiny, Shape::Wide][other as usize % 4];
            small(&mut rng, shape, &mut played)
        }
    }
}

/// Two plans on one store: the second is loaded over the first, or after a reset.
fn small(rng: &mut Rng, shape: Shape, played: &mut Played) -> Result<(), Difference> {
    let asked = early(rng);
    played.call(rng, asked)?;
    played.plan(rng, shape)?;
    if rng.once_in(2) {
        played.call(rng, Call::Reset)?;
        let asked = early(rng);
        played.call(rng, asked)?;
    }
    played.plan(rng, shape)
}

/// A history as it is played, with the tally of its replies.
pub struct Played<'a> {
    pub pair: Pair,
    tally: &'a mut Tally,
}

impl<'a> Played<'a> {
    pub fn new(rng: &mut Rng, tally: &'a mut Tally) -> Played<'a> {
        let pair = Pair::new(rng);
        Played { pair, tally }
    }

    /// The call, and before it now and then the same call lent too little.
    pub fn call(&mut self, rng: &mut Rng, call: Call) -> Result<(), Difference> {
        if !Library::has(&call) {
            return Ok(());
        }
        if rng.once_in(16) {
            let reply = self.pair.call_short(rng, &call)?;
            self.tally.count(&reply);
        }
        let reply = self.pair.call(call)?;
        self.tally.count(&reply);
        match self.pair.plan() {
            Some(plan) if rng.once_in(8) => {
                self.tally.words += 1;
                self.pair.check_words(plan)
            }
            _ => Ok(()),
        }
    }

    /// A load and some steps, with questions after each.
    fn plan(&mut self, rng: &mut Rng, shape: Shape) -> Result<(), Difference> {
        let setting = Setting::new(rng, shape);
        self.call(rng, Call::Load(setting.load.clone()))?;
        for _ in 0..3 + rng.below(14) {
            let plan = self.pair.plan().expect("loaded");
            let step = if rng.once_in(7) {
                spoilt(rng, &setting.load, plan)
            } else {
                setting.step(rng, plan)
            };
            self.call(rng, step)?;
            self.look(rng)?;
        }
        Ok(())
    }

    /// Score, verdict and starts, with room just enough; then any question, with or without room.
    pub fn look(&mut self, rng: &mut Rng) -> Result<(), Difference> {
        let room = self.pair.plan().expect("loaded").jobs;
        self.call(rng, Call::Score)?;
        self.call(rng, Call::Verdict { room })?;
        self.call(rng, Call::Starts { room })?;
        let asked = question(rng, self.pair.plan().expect("loaded"));
        self.call(rng, asked)
    }
}
