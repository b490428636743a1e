//! Random plans, histories and questions, of four shapes.

mod moves;
mod questions;

pub use moves::a_move;
pub use questions::{owner_list, question};

use crate::rng::Rng;
use rules::{Call, Load, Plan, NO_OWNER};

#[derive(Clone, Copy, Debug, PartialEq, Eq)]
pub enum Shape {
    /// Up to 5 jobs and 3 owners; anything goes.
    Tiny,
    /// Up to 10 jobs; routes mostly run forward, so most plans have times.
    Small,
    /// Up to 27 jobs and 7 owners, mostly forward.
    Wide,
    /// 512 jobs and 64 owners, mostly forward.
    Large,
}

/// A load, and a ranking of its jobs along which most edges run.
pub struct Setting {
    pub shape: Shape,
    pub load: Load,
    rank: Vec<u32>,
}

impl Setting {
    pub fn new(rng: &mut Rng, shape: Shape) -> Setting {
        let (jobs, owners, pairs) = sizes(rng, shape);
        let mut rank: Vec<u32> = (0..jobs as u32).collect();
        rng.shuffle(&mut rank);
        let durations = durations(rng, jobs);
        let expected = expected(rng, jobs, owners);
        let (from, to) = fixed(rng, shape, &rank, pairs);
        let (jobs, owners) = (jobs as u32, owners as u32);
        let load = Load {
            jobs,
            owners,
            durations,
            expected,
            from,
            to,
        };
        Setting { shape, load, rank }
    }

    /// A put or a retraction.
    pub fn step(&self, rng: &mut Rng, plan: &Plan) -> Call {
        let owner = rng.below(self.load.owners as usize);
        let held = plan.routes[owner].jobs();
        let held: Vec<u32> = held.into_iter().map(|job| job as u32).collect();
        match rng.below(9) {
            0..=2 => Call::Retract(owner as u32),
            3 if !held.is_empty() => Call::Put(owner as u32, closed(held)),
            4 => Call::Put(owner as u32, front(rng, held)),
            _ => Call::Put(owner as u32, self.entries(rng)),
        }
    }

    fn entries(&self, rng: &mut Rng) -> Vec<u32> {
        match self.shape {
            Shape::Tiny if rng.once_in(2) => self.any_entries(rng),
            _ => self.forward_entries(rng),
        }
    }

    /// Invalid entries, repeats and cycles are frequent.
    fn any_entries(&self, rng: &mut Rng) -> Vec<u32> {
        let bound = self.load.jobs as usize + 1 + rng.below(2);
        (0..rng.below(6)).map(|_| rng.below(bound) as u32).collect()
    }

    /// Along the ranking, with a neighbour swap, a repeat or an invalid entry now and then.
    fn forward_entries(&self, rng: &mut Rng) -> Vec<u32> {
        let one_in = if self.shape == Shape::Large { 32 } else { 2 };
        let chosen = self.rank.iter().filter(|_| rng.once_in(one_in));
        let mut entries: Vec<u32> = chosen.copied().collect();
        if rng.once_in(5) && entries.len() > 1 {
            let place = rng.below(entries.len() - 1);
            entries.swap(place, place + 1);
        }
        if rng.once_in(8) && !entries.is_empty() {
            let again = entries[rng.below(entries.len())];
            entries.push(again);
        }
        if rng.once_in(10) {
            let place = rng.below(entries.len() + 1);
            entries.insert(place, invalid_job(rng, self.load.jobs));
        }
        entries
    }
}

/// The first job once more at the end: a cycle through edges that appear, while none vanishes.
fn closed(mut held: Vec<u32>) -> Vec<u32> {
    held.push(held[0]);
    held
}

/// Edges vanish, none appears: the way back from a cycle.
fn front(rng: &mut Rng, mut held: Vec<u32>) -> Vec<u32> {
    held.truncate(rng.below(held.len() + 1));
    held
}

fn sizes(rng: &mut Rng, shape: Shape) -> (usize, usize, usize) {
    match shape {
        Shape::Tiny => (rng.below(6), 1 + rng.below(3), rng.below(4)),
        Shape::Small => (3 + rng.below(8), 2 + rng.below(3), rng.below(6)),
        Shape::Wide => (12 + rng.below(16), 2 + rng.below(6), rng.below(30)),
        Shape::Large => (512, 64, 1_500),
    }
}

/// Now and then mostly zeros, now and then the longest ones.
fn durations(rng: &mut Rng, jobs: usize) -> Vec<u64> {
    let bound = if rng.once_in(4) { 2 } else { 7 };
    let factor = if rng.once_in(8) {
        rules::DURATION / 6
    } else {
        1
    };
    let duration = |_| rng.below(bound) as u64 * factor;
    (0..jobs).map(duration).collect()
}

fn expected(rng: &mut Rng, jobs: usize, owners: usize) -> Vec<u32> {
    if !rng.once_in(3) {
        return Vec::new();
    }
    let mut stated = |_| match rng.below(10) {
        0..=4 => NO_OWNER,
        5 => NO_OWNER - 1,
        _ => rng.below(owners + 1) as u32,
    };
    (0..jobs).map(&mut stated).collect()
}

/// Mostly forward along the ranking; `from` never falls along the list.
fn fixed(rng: &mut Rng, shape: Shape, rank: &[u32], pairs: usize) -> (Vec<u32>, Vec<u32>) {
    let jobs = rank.len();
    let stray = if shape == Shape::Tiny { 4 } else { 400 };
    let mut list: Vec<(u32, u32)> = Vec::new();
    while jobs > 1 && list.len() < pairs {
        let place = rng.below(jobs - 1);
        let to = match rng.below(stray) {
            0 => invalid_job(rng, jobs as u32),
            1 if shape == Shape::Tiny => rng.below(jobs) as u32,
            _ => rank[place + 1 + rng.below(jobs - place - 1)],
        };
        list.push((rank[place], to));
    }
    list.sort_by_key(|pair| pair.0);
    list.into_iter().unzip()
}

fn invalid_job(rng: &mut Rng, jobs: u32) -> u32 {
    match rng.below(4) {
        0 => u32::MAX,
        _ => jobs + rng.below(3) as u32,
    }
}
