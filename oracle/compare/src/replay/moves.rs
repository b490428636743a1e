//! The four moves at every position of short routes, and at the widest positions.

use super::recorder::Recorder;
use rules::{Load, Move};

pub fn record(recorder: &mut Recorder) {
    list_changes(recorder);
    sublist_changes(recorder);
    sublist_swaps(recorder);
    permutations(recorder);
    both_checks(recorder);
    broken_routes(recorder);
    widest_positions(recorder);
}

/// Four jobs with 3 before 1, so that some moves close a cycle.
fn open(recorder: &mut Recorder, title: &str, route: &[u32]) {
    recorder.plan(title);
    recorder.load(Load {
        jobs: 4,
        owners: 2,
        durations: vec![1, 2, 3, 4],
        from: vec![3],
        to: vec![1],
        ..Load::default()
    });
    recorder.put(0, route);
}

fn list_changes(recorder: &mut Recorder) {
    open(recorder, "list change at every position", &[3, 0, 1]);
    for source in 0..5 {
        for dest in 0..5 {
            recorder.step(0, Move::ListChange { source, dest });
        }
    }
    recorder.step(1, Move::ListChange { source: 0, dest: 0 });
}

fn sublist_changes(recorder: &mut Recorder) {
    open(recorder, "sublist change at every position", &[3, 0, 1]);
    for start in 0..5 {
        for end in 0..5 {
            for dest in 0..4 {
                recorder.step(0, Move::SublistChange { start, end, dest });
            }
        }
    }
    recorder.step(
        1,
        Move::SublistChange {
            start: 0,
            end: 0,
            dest: 0,
        },
    );
}

fn sublist_swaps(recorder: &mut Recorder) {
    open(recorder, "sublist swap at every position", &[3, 1]);
    for code in 0..256 {
        let digit = |place: u32| code / 4_u32.pow(place) % 4;
        let first = (digit(3), digit(2));
        let second = (digit(1), digit(0));
        recorder.step(0, Move::SublistSwap { first, second });
    }
}

fn permutations(recorder: &mut Recorder) {
    open(
        recorder,
        "permutation: every window, right lists and wrong ones",
        &[3, 0, 1],
    );
    let lists: [&[u32]; 12] = [
        &[],
        &[0],
        &[1],
        &[0, 1],
        &[1, 0],
        &[0, 0],
        &[1, 2],
        &[0, 1, 2],
        &[2, 0, 1],
        &[2, 1, 0],
        &[1, 1, 0],
        &[0, 1, u32::MAX],
    ];
    for start in 0..5 {
        for end in 0..5 {
            for list in lists.map(<[u32]>::to_vec) {
                let near = end < start || list.len().abs_diff((end - start) as usize) < 2;
                if near && (end >= start || list.len() < 2) {
                    recorder.step(0, Move::Permutation { start, end, list });
                }
            }
        }
    }
}

fn both_checks(recorder: &mut Recorder) {
    recorder.plan("quick no, full yes: a cycle stays that the move doesn't touch");
    let fixed = |from: Vec<u32>, to: Vec<u32>| Load {
        jobs: 3,
        owners: 2,
        durations: vec![1; 3],
        from,
        to,
        ..Load::default()
    };
    let turn = || Move::ListChange { source: 1, dest: 0 };
    recorder.load(fixed(vec![0], vec![0]));
    recorder.put(0, &[1, 2]);
    recorder.step(0, turn());
    recorder.plan("a removed edge that is fixed stays on; one that another owner holds goes off");
    recorder.load(fixed(vec![0], vec![1]));
    recorder.put(0, &[0, 1]);
    recorder.step(0, turn());
    recorder.load(fixed(vec![], vec![]));
    recorder.put(0, &[0, 1]);
    recorder.put(1, &[0, 1]);
    recorder.step(0, turn());
    recorder.put(0, &[1, 0]);
    recorder.step(0, turn());
    recorder.plan("repeated edges of a route are sets to the checks");
    recorder.load(fixed(vec![], vec![]));
    recorder.put(0, &[0, 1, 0, 1, 2]);
    for dest in 0..6 {
        recorder.step(0, Move::ListChange { source: 4, dest });
        recorder.step(0, Move::ListChange { source: 0, dest });
    }
}

fn broken_routes(recorder: &mut Recorder) {
    open(
        recorder,
        "11: a route put with an invalid entry, before 8 and 10",
        &[0, 9, 1],
    );
    let step = || Move::ListChange { source: 1, dest: 0 };
    recorder.step(0, step());
    recorder.step(0, Move::ListChange { source: 9, dest: 9 });
    recorder.put(0, &[9]);
    recorder.step(0, step());
    recorder.cut(0);
    recorder.step(0, step());
    recorder.put(1, &[2, 0]);
    recorder.step(0, step());
    recorder.cut(1);
    recorder.step(1, step());
    recorder.put(0, &[0, 1]);
    recorder.step(0, step());
    recorder.step(1, step());
}

fn widest_positions(recorder: &mut Recorder) {
    open(recorder, "8: positions as wide as they come", &[3, 0, 1]);
    let wide = [0, 1, 3, 4, u32::MAX - 1, u32::MAX];
    for a in wide {
        for b in wide {
            recorder.step(0, Move::ListChange { source: a, dest: b });
            for c in [0, 2, u32::MAX] {
                let (start, end, dest) = (a, b, c);
                recorder.step(0, Move::SublistChange { start, end, dest });
                let (first, second) = ((a, b), (c, u32::MAX));
                recorder.step(0, Move::SublistSwap { first, second });
                let (first, second) = ((1, c), (a, b));
                recorder.step(0, Move::SublistSwap { first, second });
            }
            let list = vec![0];
            let (start, end) = (a, b);
            recorder.step(0, Move::Permutation { start, end, list });
        }
    }
    let list: Vec<u32> = (0..1_025).collect();
    let (start, end) = (0, 3);
    recorder.step(0, Move::Permutation { start, end, list });
}
