//! Histories: waiting owners in every order, second retractions, refused calls between others,
//! reset, load after load.

use super::recorder::Recorder;
use rules::{Call, Load, Move};

pub fn record(recorder: &mut Recorder) {
    for order in [
        [0, 1, 2],
        [0, 2, 1],
        [1, 0, 2],
        [1, 2, 0],
        [2, 0, 1],
        [2, 1, 0],
    ] {
        waiting_order(recorder, order);
    }
    own_mark(recorder);
    second_retractions(recorder);
    refused_between(recorder);
    reset_and_load(recorder);
    cycles_found_and_left(recorder);
    shared_edges(recorder);
    vanishing_and_coming_back(recorder);
}

fn load(owners: u32, durations: &[u64], fixed: &[(u32, u32)]) -> Load {
    Load {
        jobs: durations.len() as u32,
        owners,
        durations: durations.to_vec(),
        from: fixed.iter().map(|pair| pair.0).collect(),
        to: fixed.iter().map(|pair| pair.1).collect(),
        ..Load::default()
    }
}

fn waiting_order(recorder: &mut Recorder, order: [u32; 3]) {
    recorder.plan(&format!("three owners wait in the order {order:?}"));
    recorder.load(load(4, &[3, 1, 4, 1, 5, 9, 2, 6], &[(0, 7), (1, 7)]));
    recorder.put(0, &[0, 3, 6, 7]);
    recorder.put(1, &[1, 3, 5, 7]);
    recorder.put(2, &[2, 4, 6, 7]);
    recorder.look();
    for owner in order {
        recorder.cut(owner);
    }
    recorder.look();
    recorder.put(3, &[5, 6, 0]);
    recorder.look();
    // The stored order that is left shows in the visits of later walks.
    recorder.put(0, &[4, 0, 3, 6]);
    recorder.put(1, &[2, 0, 1]);
    recorder.put(0, &[]);
    recorder.look();
}

fn own_mark(recorder: &mut Recorder) {
    recorder.plan("a put by a waiting owner: its own old route is what it is compared with");
    recorder.load(load(3, &[2, 2, 2, 2], &[]));
    recorder.put(0, &[0, 1, 2]);
    recorder.put(1, &[3, 2]);
    recorder.cut(0);
    recorder.put(0, &[0, 1, 2]);
    recorder.cut(0);
    recorder.cut(1);
    recorder.put(0, &[0, 1, 2, 3]);
    recorder.look();
    recorder.cut(2);
    recorder.put(2, &[]);
    recorder.look();
}

fn second_retractions(recorder: &mut Recorder) {
    recorder.plan("a second retraction changes nothing, the order of waiting included");
    recorder.load(load(3, &[1, 2, 3, 4], &[(3, 0)]));
    recorder.put(0, &[0, 1]);
    recorder.put(1, &[1, 2]);
    recorder.cut(1);
    recorder.cut(0);
    recorder.cut(1);
    recorder.cut(1);
    recorder.look();
    recorder.put(2, &[2, 3]);
    recorder.look();
    recorder.put(1, &[3]);
    recorder.look();
}

fn refused_between(recorder: &mut Recorder) {
    recorder.plan("refused calls between others change nothing, waiting marks included");
    recorder.load(load(2, &[1, 2, 3], &[(0, 2)]));
    recorder.put(0, &[0, 1]);
    recorder.cut(0);
    recorder.put(2, &[0]);
    recorder.cut(2);
    recorder.put(1, &[0; 1_025]);
    recorder.load(load(65, &[1], &[]));
    recorder.load(load(1, &[1], &[(1, 0)]));
    let _ = recorder.call(Call::Verdict { room: 2 });
    let _ = recorder.call(Call::Starts { room: 0 });
    let owners = vec![0, 1];
    let _ = recorder.call(Call::Blocks { owners, room: 0 });
    recorder.step(1, Move::ListChange { source: 0, dest: 0 });
    recorder.look();
    recorder.put(1, &[2, 1]);
    recorder.look();
}

fn reset_and_load(recorder: &mut Recorder) {
    recorder.plan("reset, load after load: what was there is replaced, waiting marks included");
    recorder.load(load(2, &[1, 2, 3], &[(0, 2)]));
    recorder.put(0, &[2, 0]);
    recorder.cut(0);
    recorder.look();
    recorder.load(load(3, &[5, 5], &[]));
    recorder.look();
    recorder.put(1, &[1, 0]);
    recorder.look();
    let _ = recorder.call(Call::Reset);
    let _ = recorder.call(Call::Reset);
    recorder.put(0, &[0]);
    recorder.cut(0);
    recorder.score();
    recorder.load(load(1, &[1, 2, 3, 4, 5], &[(4, 0), (4, 9)]));
    recorder.look();
    recorder.put(0, &[0, 1, 2, 3]);
    recorder.look();
}

fn cycles_found_and_left(recorder: &mut Recorder) {
    recorder.plan("cycles found, kept, changed and left: every report");
    recorder.load(load(2, &[1, 2, 3, 4], &[(0, 1), (2, 3)]));
    let routes: [(u32, &[u32]); 10] = [
        (0, &[1, 2]),
        (0, &[1, 2]),
        (1, &[3, 0]),
        (1, &[3, 1]),
        (0, &[3]),
        (1, &[]),
        (1, &[2, 2]),
        (0, &[0, 3, 9]),
        (1, &[2]),
        (0, &[1, 0]),
    ];
    for (owner, entries) in routes {
        recorder.put(owner, entries);
        recorder.look();
    }
}

fn shared_edges(recorder: &mut Recorder) {
    recorder.plan("edges that several owners, one route or the fixed list hold more than once");
    recorder.load(load(3, &[1, 1, 1, 1], &[(0, 1), (0, 1)]));
    recorder.put(0, &[0, 1, 9, 0, 1]);
    recorder.put(1, &[2, 3, 9, 2, 3, 9, 2, 3]);
    recorder.put(2, &[2, 3]);
    recorder.look();
    recorder.put(0, &[0, 1]);
    recorder.put(1, &[2, 3]);
    recorder.cut(2);
    recorder.put(0, &[]);
    recorder.put(1, &[2, 9, 3]);
    recorder.look();
}

fn vanishing_and_coming_back(recorder: &mut Recorder) {
    recorder.plan("an edge that a waiting owner lets go and the put brings back is no skip");
    recorder.load(load(2, &[1, 1, 1], &[(0, 2)]));
    recorder.put(0, &[0, 1]);
    recorder.cut(0);
    recorder.put(1, &[0, 1]);
    recorder.look();
    // Now 0's heads stand as 2, 1; the same again for the other one.
    recorder.cut(1);
    recorder.put(0, &[2, 0, 1]);
    recorder.look();
}
