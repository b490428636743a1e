//! Random histories, every call of them side by side.

use crate::random::{question, Setting, Shape};
use crate::replay::call_line;
use crate::rng::Rng;
use crate::side_by_side::{Mismatch, Reply, SideBySide};
use rules::{Answer, Call, Plan, Report};

/// How often what came up.
#[derive(Debug, Default)]
pub struct Tally {
    pub puts: usize,
    pub skipped: usize,
    pub full: usize,
    pub cycle_found: usize,
    pub incremental: usize,
    pub most_visits: usize,
    pub moves: usize,
    pub moves_quick: usize,
    pub moves_full: usize,
    pub blocks: usize,
    pub refused: usize,
    pub struck_a: usize,
    pub struck_b: usize,
    pub struck_c: usize,
}

/// History `number` of a seed: tiny, small and wide ones in turn, a large one now and then.
pub fn run(seed: u64, number: u64, tally: &mut Tally) -> Result<(), Mismatch> {
    let shape = match number % 400 {
        399 => Shape::Large,
        other => [Shape::Tiny, Shape::Small, Shape::Tiny, Shape::Wide][other as usize % 4],
    };
    let mut rng = Rng::new(seed.wrapping_mul(1_000_003).wrapping_add(number));
    history(&mut rng, shape, tally)
}

/// One history of a shape with questions after each step; a mismatch tells all calls up to it.
pub fn history(rng: &mut Rng, shape: Shape, tally: &mut Tally) -> Result<(), Mismatch> {
    let setting = Setting::new(rng, shape);
    let mut played = Played::default();
    played.call(Call::Load(setting.load.clone()), tally)?;
    for _ in 0..3 + rng.below(18) {
        let step = setting.step(rng, played.plan());
        played.call(step, tally)?;
        for _ in 0..2 {
            let asked = question(rng, played.plan());
            played.call(asked, tally)?;
        }
    }
    let struck = played.sides.struck();
    tally.struck_a += usize::from(struck.a);
    tally.struck_b += usize::from(struck.b);
    tally.struck_c += usize::from(struck.c);
    Ok(())
}

#[derive(Default)]
struct Played {
    sides: SideBySide,
    calls: Vec<Call>,
}

impl Played {
    fn plan(&self) -> &Plan {
        self.sides.plan().expect("loaded")
    }

    fn call(&mut self, call: Call, tally: &mut Tally) -> Result<(), Mismatch> {
        let reply = self.sides.call(&call);
        self.calls.push(call);
        match reply {
            Ok(reply) => {
                tally.count(&reply);
                Ok(())
            }
            Err(Mismatch(what)) => {
                let lines = self.calls.iter().map(|call| call_line(None, call));
                let lines: Vec<String> = lines.collect();
                Err(Mismatch(format!("{what}\n{}", lines.join("\n"))))
            }
        }
    }
}

impl Tally {
    fn count(&mut self, reply: &Reply) {
        match reply {
            Err(_) => self.refused += 1,
            Ok(Answer::Put(_, report)) => self.count_put(*report),
            Ok(Answer::Moved(moved)) => {
                self.moves += 1;
                self.moves_quick += usize::from(moved.quick);
                self.moves_full += usize::from(moved.full);
            }
            Ok(Answer::Blocks(blocks)) => self.blocks += blocks.len(),
            Ok(_) => {}
        }
    }

    fn count_put(&mut self, report: Report) {
        self.puts += 1;
        self.most_visits = self.most_visits.max(report.visits());
        match report {
            Report::Skipped => self.skipped += 1,
            Report::Full => self.full += 1,
            Report::CycleFound => self.cycle_found += 1,
            Report::Incremental(_) => self.incremental += 1,
        }
    }
}
