//! The public calls, each with its refusals in document 01's order.

use crate::limits::ENTRIES;
use crate::{Block, Load, Move, Moved, Penalty, Plan, Refusal, Report, Route, Score};

/// The store's lent slices.
#[derive(Clone, Copy, Debug, PartialEq, Eq)]
pub enum Slice {
    Base,
    Spans,
    Edges,
    Routes,
    Times,
}

impl Slice {
    pub const ALL: [Slice; 5] = [
        Slice::Base,
        Slice::Spans,
        Slice::Edges,
        Slice::Routes,
        Slice::Times,
    ];
}

/// The shown line-up, or the shown cycle.
#[derive(Clone, Debug, PartialEq, Eq)]
pub enum Verdict {
    LineUp(Vec<u32>),
    Cycle(Vec<u32>),
}

/// Zeroed by default. `room` of a call is the number of places in its answer buffer.
#[derive(Clone, Debug, Default, PartialEq, Eq)]
pub struct Store {
    plan: Option<Plan>,
    /// The slice that is lent shorter than its constant.
    pub short: Option<Slice>,
}

impl Store {
    pub fn plan(&self) -> Option<&Plan> {
        self.plan.as_ref()
    }

    pub fn load(&mut self, load: &Load) -> Result<Score, Refusal> {
        self.whole()?;
        load.check()?;
        let plan = Plan::new(load);
        let score = penalty(&plan).score();
        self.plan = Some(plan);
        Ok(score)
    }

    pub fn reset(&mut self) -> Result<Score, Refusal> {
        self.whole()?;
        self.plan = None;
        Ok(Score::default())
    }

    pub fn retract(&mut self, owner: u32) -> Result<Score, Refusal> {
        self.owner(owner)?;
        self.loaded_mut()?.retract(owner as usize);
        Ok(Score::default())
    }

    pub fn put(&mut self, owner: u32, entries: &[u32]) -> Result<(Score, Report), Refusal> {
        self.owner(owner)?;
        Refusal::Entries.when(entries.len() > ENTRIES)?;
        let owner = owner as usize;
        let plan = self.loaded_mut()?;
        let route = Route::read(entries, plan.jobs);
        Refusal::InForce.when(plan.in_force_after(owner, route.len()) > ENTRIES)?;
        let before = plan.times();
        let score_before = plan.penalty(&before).score();
        let exchange = plan.exchange(owner, route);
        let after = plan.times();
        let report = plan.report(&exchange, before, &after);
        Ok((plan.penalty(&after).score().minus(score_before), report))
    }

    /// The score and the match count.
    pub fn score(&self) -> Result<(Score, usize), Refusal> {
        let penalty = penalty(self.loaded()?);
        Ok((penalty.score(), penalty.matches()))
    }

    pub fn verdict(&self, room: usize) -> Result<Verdict, Refusal> {
        let plan = self.loaded()?;
        Refusal::Room.when(room < plan.jobs)?;
        let graph = plan.graph();
        Ok(match graph.line_up() {
            Some(order) => Verdict::LineUp(numbers(&order)),
            None => Verdict::Cycle(numbers(&graph.shown_cycle().expect("a cycle"))),
        })
    }

    pub fn starts(&self, room: usize) -> Result<Vec<u64>, Refusal> {
        let plan = self.loaded()?;
        Refusal::Room.when(room < plan.jobs)?;
        Ok(plan.times().starts)
    }

    pub fn blocks(&self, owners: &[u32], room: usize) -> Result<Vec<Block>, Refusal> {
        let blocks = self.loaded()?.blocks(owners);
        Refusal::Room.when(room < blocks.len())?;
        Ok(blocks)
    }

    pub fn list_change(
        &self,
        owner: u32,
        source: u32,
        dest: u32,
        room: usize,
    ) -> Result<Moved, Refusal> {
        self.moved(owner, &Move::ListChange { source, dest }, room)
    }

    pub fn sublist_change(
        &self,
        owner: u32,
        start: u32,
        end: u32,
        dest: u32,
        room: usize,
    ) -> Result<Moved, Refusal> {
        self.moved(owner, &Move::SublistChange { start, end, dest }, room)
    }

    pub fn sublist_swap(
        &self,
        owner: u32,
        first: (u32, u32),
        second: (u32, u32),
        room: usize,
    ) -> Result<Moved, Refusal> {
        self.moved(owner, &Move::SublistSwap { first, second }, room)
    }

    pub fn permutation(
        &self,
        owner: u32,
        start: u32,
        end: u32,
        list: &[u32],
        room: usize,
    ) -> Result<Moved, Refusal> {
        let list = list.to_vec();
        self.moved(owner, &Move::Permutation { start, end, list }, room)
    }

    /// Any of the four moves; the store stays.
    pub fn moved(&self, owner: u32, step: &Move, room: usize) -> Result<Moved, Refusal> {
        self.owner(owner)?;
        let plan = self.loaded()?;
        let route = &plan.routes[owner as usize];
        Refusal::InvalidEntry.when(route.invalid > 0)?;
        let old = route.jobs();
        let new = step.apply(&old).ok_or(Refusal::Positions)?;
        Refusal::Room.when(room < old.len())?;
        let (quick, full) = plan.checks(&old, &new);
        let route = numbers(&new);
        Ok(Moved { quick, full, route })
    }

    fn whole(&self) -> Result<(), Refusal> {
        Refusal::ShortStore.when(self.short.is_some())
    }

    fn loaded(&self) -> Result<&Plan, Refusal> {
        self.whole()?;
        self.plan.as_ref().ok_or(Refusal::NotLoaded)
    }

    fn loaded_mut(&mut self) -> Result<&mut Plan, Refusal> {
        self.whole()?;
        self.plan.as_mut().ok_or(Refusal::NotLoaded)
    }

    fn owner(&self, owner: u32) -> Result<(), Refusal> {
        let owners = self.loaded()?.routes.len();
        Refusal::Owner.when(owner as usize >= owners)
    }
}

fn penalty(plan: &Plan) -> Penalty {
    plan.penalty(&plan.times())
}

fn numbers(jobs: &[usize]) -> Vec<u32> {
    jobs.iter().map(|&job| job as u32).collect()
}
