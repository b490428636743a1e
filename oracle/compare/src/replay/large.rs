//! Plans of 512 jobs: 64 owners, one owner, full tables.

use super::recorder::Recorder;
use crate::random::{question, Setting, Shape};
use crate::rng::Rng;
use crate::workloads::{hub, ladder, layered, one_owner, ranked, Workload};
use rules::{Call, Load, Move, DURATION, ENTRIES, FIXED};

const SEED: u64 = 512;

pub fn record(recorder: &mut Recorder) {
    let mut rng = Rng::new(SEED);
    routes_of_eight(
        recorder,
        &mut rng,
        "64 owners of 8 jobs, in stages",
        layered(SEED),
    );
    routes_of_eight(
        recorder,
        &mut rng,
        "64 owners of 8 jobs, ranked",
        ranked(SEED),
    );
    one_long_route(recorder, &mut rng);
    full_tables(recorder);
    longest_chain(recorder);
    long_walks(recorder);
    wide_hub(recorder);
    random_history(recorder, &mut rng);
}

/// The score alone, and now and then everything.
fn glance(recorder: &mut Recorder, rng: &mut Rng) {
    if rng.once_in(6) {
        recorder.look();
    } else {
        recorder.score();
    }
}

fn routes_of_eight(recorder: &mut Recorder, rng: &mut Rng, title: &str, workload: Workload) {
    recorder.plan(&format!("512 jobs: {title}"));
    recorder.load(workload.load);
    for (owner, route) in workload.routes.iter().enumerate() {
        recorder.put(owner as u32, route);
    }
    recorder.look();
    for _ in 0..24 {
        let owner = rng.below(64);
        let mut route = workload.routes[owner].clone();
        route.swap(rng.below(8), rng.below(8));
        if rng.once_in(4) {
            recorder.cut(rng.below(64) as u32);
        }
        let owner = owner as u32;
        let (source, dest) = (rng.below(8) as u32, rng.below(9) as u32);
        recorder.step(owner, Move::ListChange { source, dest });
        recorder.put(owner, &route);
        glance(recorder, rng);
    }
}

fn one_long_route(recorder: &mut Recorder, rng: &mut Rng) {
    recorder.plan("512 jobs: one owner with 1,024 entries");
    let workload = one_owner(SEED);
    recorder.load(Load {
        owners: 1,
        ..workload.load
    });
    let forward = &workload.rank;
    recorder.put(0, forward);
    recorder.look();
    for place in [0, 100, 510] {
        let mut route = forward.clone();
        route.swap(place, place + 1);
        recorder.put(0, &route);
        recorder.score();
    }
    long_moves(recorder, rng, 512);
    // All but one job twice, unbroken by one invalid entry: 1,024 entries without a cycle.
    let broken = [forward, &[u32::MAX][..], &forward[1..]].concat();
    recorder.put(0, &broken);
    recorder.look();
    let twice = [forward.as_slice(), forward].concat();
    assert_eq!(twice.len(), ENTRIES);
    recorder.put(0, &twice);
    recorder.look();
    long_moves(recorder, rng, ENTRIES);
    let over = [&twice[..], &[0]].concat();
    recorder.put(0, &over);
    recorder.put(0, &twice[256..768]);
    recorder.put(0, &[]);
    recorder.look();
}

fn long_moves(recorder: &mut Recorder, rng: &mut Rng, length: usize) {
    let mut place = |bound: usize| rng.below(bound) as u32;
    let (source, dest) = (place(length), place(length));
    recorder.step(0, Move::ListChange { source, dest });
    let (start, end, dest) = (10, 20, length as u32 - 10);
    recorder.step(0, Move::SublistChange { start, end, dest });
    let (first, second) = ((1, 3), (length as u32 - 1, length as u32));
    recorder.step(0, Move::SublistSwap { first, second });
    let list = (0..5).rev().collect();
    let (start, end) = (length as u32 - 5, length as u32);
    let step = Move::Permutation { start, end, list };
    for room in [length - 1, length] {
        let step = step.clone();
        let _ = recorder.call(Call::Move {
            owner: 0,
            step,
            room,
        });
    }
}

/// As many edges as there can be: 3,072 fixed pairs and 1,023 neighbours, all distinct.
fn full_tables(recorder: &mut Recorder) {
    recorder.plan("512 jobs: 3,072 fixed pairs and 1,024 entries, 4,095 distinct edges");
    let pairs = (0..512_u32).flat_map(|from| (1..=6).map(move |step| (from, (from + step) % 512)));
    let (from, to): (Vec<u32>, Vec<u32>) = pairs.unzip();
    assert_eq!(from.len(), FIXED);
    recorder.load(Load {
        jobs: 512,
        owners: 64,
        durations: vec![0; 512],
        from,
        to,
        ..Load::default()
    });
    // Steps of 7 and of 11 around the ring give edges that no other step gives.
    let around = |step: u32| (0..512).map(move |place| place * step % 512);
    let route: Vec<u32> = around(7).chain(around(11)).collect();
    recorder.put(0, &route);
    let state = recorder.state().expect("loaded");
    assert_eq!(state.live().len(), 4_095);
    recorder.look();
    let turned: Vec<u32> = route.iter().rev().copied().collect();
    recorder.put(0, &turned);
    recorder.score();
    for owner in 0..64 {
        recorder.put(owner, &route[owner as usize * 16..][..16]);
    }
    recorder.score();
    recorder.cut(0);
    recorder.put(63, &turned);
    recorder.cut(63);
    recorder.put(0, &[]);
    recorder.look();
}

/// The longest durations in one chain: the greatest makespan.
fn longest_chain(recorder: &mut Recorder) {
    recorder.plan("512 jobs of duration 2^40 in one chain: makespan 2^49");
    recorder.load(Load {
        jobs: 512,
        owners: 1,
        durations: vec![DURATION; 512],
        expected: vec![0; 512],
        ..Load::default()
    });
    let route: Vec<u32> = (0..512).rev().collect();
    recorder.put(0, &route);
    recorder.look();
    recorder.put(0, &[]);
    recorder.score();
}

fn long_walks(recorder: &mut Recorder) {
    recorder.plan("512 jobs: a ladder that makes the walk visit jobs again and again");
    recorder.load(ladder().load);
    recorder.put(0, &[511, 0]);
    recorder.look();
    recorder.put(0, &[]);
    recorder.put(1, &[511, 100]);
    recorder.cut(1);
    recorder.put(0, &[511, 200]);
    recorder.score();
}

fn wide_hub(recorder: &mut Recorder) {
    recorder.plan("512 jobs: a hub of 400 children");
    recorder.load(hub(SEED).load);
    recorder.put(0, &[0, 450]);
    recorder.put(1, &[450, 17, 500]);
    recorder.put(2, &[501, 0]);
    recorder.put(0, &[0, 17]);
    recorder.look();
    recorder.put(2, &[]);
    recorder.put(1, &[17, 0]);
    recorder.look();
}

fn random_history(recorder: &mut Recorder, rng: &mut Rng) {
    recorder.plan("512 jobs: a random history");
    let setting = Setting::new(rng, Shape::Large);
    let _ = recorder.call(Call::Load(setting.load.clone()));
    for _ in 0..150 {
        let step = setting.step(rng, recorder.state().expect("loaded"));
        let _ = recorder.call(step);
        if rng.once_in(3) {
            let asked = question(rng, recorder.state().expect("loaded"));
            let _ = recorder.call(asked);
        }
    }
    recorder.look();
}
