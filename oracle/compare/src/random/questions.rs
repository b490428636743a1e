//! Random questions about a plan as it stands.

use super::a_move;
use crate::rng::Rng;
use rules::{Call, Move, Plan};

/// Owners in any order, with repeats and some out of range.
pub fn owner_list(rng: &mut Rng, owners: usize) -> Vec<u32> {
    let length = rng.below(6);
    let mut owner = |_| match rng.below(12) {
        0 => u32::MAX,
        1 => owners as u32,
        _ => rng.below(owners.max(1)) as u32,
    };
    (0..length).map(&mut owner).collect()
}

/// A question about the plan as it stands, with room enough or not.
pub fn question(rng: &mut Rng, plan: &Plan) -> Call {
    match rng.below(8) {
        0 => Call::Score,
        1 | 2 => Call::Verdict {
            room: room(rng, plan.jobs),
        },
        3 => Call::Starts {
            room: room(rng, plan.jobs),
        },
        4 => {
            let owners = owner_list(rng, plan.routes.len());
            let room = room(rng, plan.blocks(&owners).len());
            Call::Blocks { owners, room }
        }
        _ => a_move_call(rng, plan),
    }
}

fn a_move_call(rng: &mut Rng, plan: &Plan) -> Call {
    let owners = plan.routes.len();
    if owners == 0 || rng.once_in(40) {
        let step = Move::ListChange { source: 0, dest: 0 };
        let owner = owners as u32;
        return Call::Move {
            owner,
            step,
            room: 0,
        };
    }
    let owner = rng.below(owners);
    let length = plan.routes[owner].len();
    let step = a_move(rng, length);
    let room = room(rng, length);
    let owner = owner as u32;
    Call::Move { owner, step, room }
}

/// One short now and then, larger than needed now and then.
fn room(rng: &mut Rng, needed: usize) -> usize {
    match rng.below(6) {
        0 => needed.saturating_sub(1),
        1 => needed + 1 + rng.below(5),
        _ => needed,
    }
}
