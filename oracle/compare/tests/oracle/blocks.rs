//! Critical blocks on both sides.

use compare::random::{owner_list, Setting, Shape};
use compare::rng::Rng;
use compare::side_by_side::SideBySide;
use compare::workloads::{layered, one_owner, ranked};
use rules::{Answer, Block, Call, Load};

fn blocks(sides: &mut SideBySide, owners: &[u32]) -> Vec<Block> {
    let owners = owners.to_vec();
    let room = 1 << 20;
    match sides.call(&Call::Blocks { owners, room }) {
        Ok(Ok(Answer::Blocks(blocks))) => blocks,
        other => panic!("{other:?}"),
    }
}

#[test]
fn blocks_are_equal_over_random_plans() {
    let mut rng = Rng::new(3);
    let (mut alone, mut runs) = (0, 0);
    for number in 0..1_500 {
        let shape = [Shape::Tiny, Shape::Small, Shape::Wide][number % 3];
        let setting = Setting::new(&mut rng, shape);
        let mut sides = SideBySide::default();
        sides
            .call(&Call::Load(setting.load.clone()))
            .unwrap()
            .unwrap();
        for _ in 0..5 {
            let step = setting.step(&mut rng, sides.plan().unwrap());
            let _ = sides.call(&step).unwrap();
            let owners = owner_list(&mut rng, setting.load.owners as usize);
            for block in blocks(&mut sides, &owners) {
                alone += usize::from(block.first == block.last);
                runs += usize::from(block.first < block.last);
            }
        }
    }
    assert!(alone > 500 && runs > 500, "{alone} alone, {runs} runs");
}

#[test]
fn blocks_are_equal_at_full_size() {
    let owners: Vec<u32> = (0..64).collect();
    for workload in [layered(1), ranked(1), one_owner(1)] {
        let mut sides = SideBySide::default();
        sides.call(&Call::Load(workload.load)).unwrap().unwrap();
        for (owner, route) in workload.routes.iter().enumerate() {
            let put = Call::Put(owner as u32, route.clone());
            sides.call(&put).unwrap().unwrap();
        }
        assert!(!blocks(&mut sides, &owners).is_empty());
    }
}

/// Two jobs of duration 1, as the rules answer and as the given Rust must.
fn two_jobs(fixed: &[(u32, u32)], entries: &[u32], owners: &[u32]) -> Vec<(u32, u32, u32, u32)> {
    let mut sides = SideBySide::default();
    let load = Load {
        jobs: 2,
        owners: 1,
        durations: vec![1, 1],
        from: fixed.iter().map(|pair| pair.0).collect(),
        to: fixed.iter().map(|pair| pair.1).collect(),
        ..Load::default()
    };
    sides.call(&Call::Load(load)).unwrap().unwrap();
    sides
        .call(&Call::Put(0, entries.to_vec()))
        .unwrap()
        .unwrap();
    let record = |block: Block| (block.owner, block.first, block.last, block.length);
    blocks(&mut sides, owners).into_iter().map(record).collect()
}

#[test]
fn blocks_by_hand() {
    // A run may cross a break if the edge is live all the same.
    assert_eq!(two_jobs(&[(0, 1)], &[0, 9, 1], &[0]), [(0, 0, 1, 2)]);
    assert_eq!(
        two_jobs(&[], &[0, 9, 1], &[0]),
        [(0, 0, 0, 2), (0, 1, 1, 2)]
    );
    // A place on no run is a block alone, though its job stands in a run elsewhere.
    assert_eq!(
        two_jobs(&[], &[0, 1, 9, 1], &[0]),
        [(0, 0, 1, 3), (0, 2, 2, 3)]
    );
    // Repeats are answered again, owners out of range skipped.
    assert_eq!(two_jobs(&[], &[0, 1], &[7, 0, 0]), [(0, 0, 1, 2); 2]);
    assert_eq!(two_jobs(&[(1, 0)], &[0, 1], &[0]), []);
}
