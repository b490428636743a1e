//! The walk's visits stay within n(n+1)/2; every put side by side checks it too.

use compare::rng::Rng;
use compare::side_by_side::SideBySide;
use compare::workloads::ladder;
use rules::{Answer, Call, Load, Report};

fn visits(sides: &mut SideBySide, owner: u32, entries: &[u32]) -> usize {
    match sides.call(&Call::Put(owner, entries.to_vec())).unwrap() {
        Ok(Answer::Put(_, Report::Incremental(visits))) => visits,
        other => panic!("{other:?}"),
    }
}

/// Each job before most later ones, the farthest stored first: a walk comes back to many jobs.
fn dense(rng: &mut Rng, jobs: u32) -> Load {
    let mut load = Load {
        jobs,
        owners: 1,
        durations: (0..jobs).map(|_| rng.below(4) as u64).collect(),
        ..Load::default()
    };
    load.durations[jobs as usize - 1] = 100;
    for from in 0..jobs - 1 {
        for to in (from + 1..jobs - 1).rev() {
            if !rng.once_in(5) {
                load.from.push(from);
                load.to.push(to);
            }
        }
    }
    load
}

#[test]
fn bound_holds_on_dense_plans() {
    let mut rng = Rng::new(9);
    let mut above_n = 0;
    for _ in 0..1_500 {
        let jobs = 2 + rng.below(12) as u32;
        let mut sides = SideBySide::default();
        let load = dense(&mut rng, jobs);
        sides.call(&Call::Load(load)).unwrap().unwrap();
        let n = jobs as usize;
        // The long last job comes before the first, and leaves again.
        for entries in [&[jobs - 1, 0][..], &[]] {
            let visits = visits(&mut sides, 0, entries);
            assert!(visits <= n * (n + 1) / 2, "{visits} visits of {n} jobs");
            above_n += usize::from(visits > n);
        }
    }
    assert!(above_n > 1_000, "{above_n} walks came back to a job");
}

#[test]
fn bound_holds_on_the_ladder() {
    let mut sides = SideBySide::default();
    sides.call(&Call::Load(ladder().load)).unwrap().unwrap();
    let visits = visits(&mut sides, 0, &[511, 0]);
    assert!(visits > 4 * 512, "{visits} visits");
    assert!(visits <= 512 * 513 / 2, "{visits} visits");
}
