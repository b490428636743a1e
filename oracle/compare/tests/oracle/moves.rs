//! The four moves and both checks on both sides.

use compare::random::{a_move, Setting, Shape};
use compare::rng::Rng;
use compare::side_by_side::SideBySide;
use compare::workloads::{layered, one_owner, ranked};
use rules::{Answer, Call, Moved, Plan, Refusal};
use std::collections::BTreeMap;

/// How often each pair of verdicts was answered, and how many moves were refused.
#[derive(Default)]
struct Verdicts {
    answered: BTreeMap<(bool, bool), usize>,
    refused: usize,
}

impl Verdicts {
    /// A random move, compared with the given Rust where the rules accept it.
    fn ask(&mut self, sides: &mut SideBySide, rng: &mut Rng, owner: usize) {
        let length = sides.plan().unwrap().routes[owner].len();
        let step = a_move(rng, length);
        let owner = owner as u32;
        let call = Call::Move {
            owner,
            step,
            room: length,
        };
        match sides.call(&call).unwrap() {
            Ok(Answer::Moved(Moved { quick, full, .. })) => {
                *self.answered.entry((quick, full)).or_default() += 1;
            }
            Err(Refusal::Positions | Refusal::InvalidEntry) => self.refused += 1,
            other => panic!("{other:?}"),
        }
    }

    fn times(&self, quick: bool, full: bool) -> usize {
        self.answered.get(&(quick, full)).copied().unwrap_or(0)
    }
}

#[test]
fn checks_are_equal_over_random_plans() {
    let mut rng = Rng::new(5);
    let mut verdicts = Verdicts::default();
    for number in 0..1_500 {
        let shape = [Shape::Tiny, Shape::Small, Shape::Wide][number % 3];
        let setting = Setting::new(&mut rng, shape);
        let mut sides = SideBySide::default();
        sides
            .call(&Call::Load(setting.load.clone()))
            .unwrap()
            .unwrap();
        for _ in 0..5 {
            let step = setting.step(&mut rng, sides.plan().unwrap());
            let _ = sides.call(&step).unwrap();
            for _ in 0..4 {
                let owner = rng.below(setting.load.owners as usize);
                verdicts.ask(&mut sides, &mut rng, owner);
            }
        }
    }
    for (quick, full) in [(false, false), (true, true), (false, true)] {
        assert!(verdicts.times(quick, full) > 500, "{:?}", verdicts.answered);
    }
    // A cycle through an added edge is a cycle.
    assert_eq!(verdicts.times(true, false), 0);
    assert!(verdicts.refused > 500);
}

#[test]
fn checks_are_equal_at_full_size() {
    let mut rng = Rng::new(6);
    let mut verdicts = Verdicts::default();
    for workload in [layered(2), ranked(2), one_owner(2)] {
        let mut sides = SideBySide::default();
        sides.call(&Call::Load(workload.load)).unwrap().unwrap();
        for (owner, route) in workload.routes.iter().enumerate() {
            let put = Call::Put(owner as u32, route.clone());
            sides.call(&put).unwrap().unwrap();
        }
        for _ in 0..60 {
            let owner = longest_or_any(&mut rng, sides.plan().unwrap());
            verdicts.ask(&mut sides, &mut rng, owner);
        }
    }
    assert!(verdicts.times(false, false) > 10 && verdicts.times(true, true) > 10);
}

fn longest_or_any(rng: &mut Rng, plan: &Plan) -> usize {
    if plan.routes[0].len() > 8 {
        0
    } else {
        rng.below(plan.routes.len())
    }
}
