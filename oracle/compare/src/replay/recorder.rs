//! Runs calls side by side and writes them down with their answers.

use super::format::{answer_line, call_line};
use crate::side_by_side::{Reply, SideBySide};
use rules::{Call, Load, Move, Plan, Slice, ENTRIES};

#[derive(Default)]
pub struct Recorder {
    text: String,
    plans: usize,
    calls: usize,
    greatest_room: usize,
    sides: SideBySide,
}

impl Recorder {
    pub fn text(&self) -> &str {
        &self.text
    }

    pub fn plans(&self) -> usize {
        self.plans
    }

    pub fn calls(&self) -> usize {
        self.calls
    }

    pub fn greatest_room(&self) -> usize {
        self.greatest_room
    }

    /// Begins a plan on a zeroed store.
    pub fn plan(&mut self, title: &str) {
        self.plans += 1;
        self.text += &format!("# {title}\nplan {}\n", self.plans);
        self.sides = SideBySide::default();
    }

    pub fn call(&mut self, call: Call) -> Reply {
        self.record(None, call)
    }

    /// The call with one slice of the store lent too short.
    pub fn short(&mut self, slice: Slice, call: Call) {
        self.sides.rules_mut().short = Some(slice);
        let reply = self.record(Some(slice), call);
        self.sides.rules_mut().short = None;
        assert!(reply.is_err());
    }

    fn record(&mut self, short: Option<Slice>, call: Call) -> Reply {
        let line = call_line(short, &call);
        let reply = match self.sides.call(&call) {
            Ok(reply) => reply,
            Err(mismatch) => panic!("plan {}, {line}: {}", self.plans, mismatch.0),
        };
        self.calls += 1;
        self.greatest_room = self.greatest_room.max(room(&call));
        self.text += &format!("{line}\n{}\n", answer_line(&reply));
        reply
    }

    pub fn load(&mut self, load: Load) {
        let _ = self.call(Call::Load(load));
    }

    pub fn cut(&mut self, owner: u32) {
        let _ = self.call(Call::Retract(owner));
    }

    pub fn put(&mut self, owner: u32, entries: &[u32]) {
        let _ = self.call(Call::Put(owner, entries.to_vec()));
    }

    pub fn score(&mut self) {
        let _ = self.call(Call::Score);
    }

    /// With room for any route.
    pub fn step(&mut self, owner: u32, step: Move) {
        let room = ENTRIES;
        let _ = self.call(Call::Move { owner, step, room });
    }

    /// Score, verdict, starts and the blocks of all owners, with room just enough.
    pub fn look(&mut self) {
        let Some(plan) = self.state() else {
            return self.score();
        };
        let room = plan.jobs;
        let owners: Vec<u32> = (0..plan.routes.len() as u32).collect();
        let blocks = plan.blocks(&owners).len();
        self.score();
        let _ = self.call(Call::Verdict { room });
        let _ = self.call(Call::Starts { room });
        let _ = self.call(Call::Blocks {
            owners,
            room: blocks,
        });
    }

    /// The plan as it stands, nothing while not loaded.
    pub fn state(&self) -> Option<&Plan> {
        self.sides.plan()
    }
}

fn room(call: &Call) -> usize {
    match *call {
        Call::Verdict { room } | Call::Starts { room } => room,
        Call::Blocks { room, .. } | Call::Move { room, .. } => room,
        _ => 0,
    }
}
