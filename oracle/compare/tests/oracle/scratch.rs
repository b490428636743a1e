//! The given Rust from scratch against the rules, on the domain of document 01.

use compare::random::{Setting, Shape};
use compare::rng::Rng;
use given::{constraint, score, IncrementalConstraint, Solution};
use rules::{Call, Store};

/// A random plan with its routes, on the rules and as a solution.
fn filled(rng: &mut Rng, shape: Shape) -> (Store, Solution) {
    let setting = Setting::new(rng, shape);
    let mut store = Store::default();
    store.load(&setting.load).unwrap();
    let mut solution = Solution::new(&setting.load);
    for _ in 0..2 * setting.load.owners {
        let step = setting.step(rng, store.plan().unwrap());
        if let Call::Put(owner, entries) = step {
            if store.put(owner, &entries).is_ok() {
                solution.routes[owner as usize] = entries;
            }
        }
    }
    (store, solution)
}

fn compare(store: &Store, solution: &Solution) {
    let (scored, matches) = store.score().unwrap();
    let mut given = constraint(solution);
    assert_eq!(score(given.evaluate(solution)), scored);
    assert_eq!(given.match_count(solution), matches);
    assert_eq!(score(given.initialize(solution)), scored);
    let times = store.plan().unwrap().times();
    let starts: Vec<u64> = given
        .kept_starts()
        .iter()
        .map(|&start| start as u64)
        .collect();
    assert_eq!(starts, times.starts);
    assert_eq!(given.kept_cyclic(), times.cyclic);
}

#[test]
fn scratch_equals_the_rules() {
    let mut rng = Rng::new(1);
    let mut cyclic = 0;
    for (shape, plans) in [
        (Shape::Tiny, 6_000),
        (Shape::Small, 3_000),
        (Shape::Wide, 600),
        (Shape::Large, 12),
    ] {
        for _ in 0..plans {
            let (store, solution) = filled(&mut rng, shape);
            compare(&store, &solution);
            cyclic += usize::from(store.plan().unwrap().times().cyclic);
        }
    }
    assert!((1_000..8_000).contains(&cyclic), "both kinds: {cyclic}");
}
