//! The refusals of the other calls at the edges of their limits, and their order.

use super::load_limits::plain;
use super::recorder::Recorder;
use rules::{Call, Move, Slice, ENTRIES};

pub fn record(recorder: &mut Recorder) {
    zeroed_store(recorder);
    short_slices(recorder);
    owners(recorder);
    put_entries(recorder);
    entries_in_force(recorder);
    one_owner_in_force(recorder);
    rooms(recorder);
}

/// Every call but load, with owner 0.
pub fn every_call() -> Vec<Call> {
    let list = Vec::new();
    let (start, end) = (0, 0);
    let steps = [
        Move::ListChange { source: 0, dest: 0 },
        Move::SublistChange {
            start,
            end,
            dest: 0,
        },
        Move::SublistSwap {
            first: (0, 0),
            second: (0, 0),
        },
        Move::Permutation { start, end, list },
    ];
    let mut calls = vec![
        Call::Retract(0),
        Call::Put(0, vec![0]),
        Call::Score,
        Call::Verdict { room: 4 },
        Call::Starts { room: 4 },
        Call::Blocks {
            owners: vec![0],
            room: 4,
        },
    ];
    calls.extend(steps.map(|step| Call::Move {
        owner: 0,
        step,
        room: 4,
    }));
    calls
}

fn zeroed_store(recorder: &mut Recorder) {
    recorder.plan("a zeroed store, then a reset one: 1 for every call but load and reset");
    for call in every_call() {
        let _ = recorder.call(call);
    }
    let _ = recorder.call(Call::Reset);
    recorder.load(plain(2, 1));
    recorder.put(0, &[1, 0]);
    recorder.look();
    let _ = recorder.call(Call::Reset);
    for call in every_call() {
        let _ = recorder.call(call);
    }
    // 1 comes before every refusal that looks at the arguments.
    recorder.put(9, &[0; ENTRIES + 1]);
    let _ = recorder.call(Call::Reset);
    recorder.load(plain(2, 1));
    recorder.look();
}

fn short_slices(recorder: &mut Recorder) {
    recorder.plan("a slice lent too short: 9 before everything, and nothing changes");
    for slice in Slice::ALL {
        recorder.short(slice, Call::Reset);
        recorder.short(slice, Call::Score);
        recorder.short(slice, Call::Load(plain(513, 65)));
    }
    recorder.load(plain(3, 2));
    recorder.put(0, &[2, 0]);
    for slice in Slice::ALL {
        for call in every_call() {
            recorder.short(slice, call);
        }
        recorder.short(slice, Call::Load(plain(1, 1)));
        recorder.short(slice, Call::Reset);
        recorder.short(slice, Call::Put(7, vec![0; ENTRIES + 1]));
        recorder.look();
    }
    recorder.put(1, &[1]);
    recorder.look();
}

fn owners(recorder: &mut Recorder) {
    recorder.plan("5: owners at their limit, before 6, 8, 10 and 11; blocks skip them");
    recorder.load(plain(3, 64));
    for owner in [63, 64, u32::MAX] {
        recorder.cut(owner);
        recorder.put(owner, &[2, 1, 9]);
        recorder.put(owner, &[0; ENTRIES + 1]);
        for step in [
            Move::ListChange { source: 9, dest: 9 },
            Move::SublistChange {
                start: 2,
                end: 1,
                dest: 0,
            },
            Move::SublistSwap {
                first: (1, 0),
                second: (9, 9),
            },
            Move::Permutation {
                start: 0,
                end: 1,
                list: vec![1],
            },
        ] {
            let _ = recorder.call(Call::Move {
                owner,
                step,
                room: 0,
            });
        }
    }
    for owners in [vec![64, 63, u32::MAX, 63], vec![64], vec![], vec![0, 62]] {
        let _ = recorder.call(Call::Blocks { owners, room: 8 });
    }
    recorder.look();
}

fn put_entries(recorder: &mut Recorder) {
    recorder.plan("6: 1,024 entries and one more, valid or not; 6 before 7");
    recorder.load(plain(2, 2));
    recorder.put(0, &[9; ENTRIES]);
    recorder.score();
    recorder.put(0, &[9; ENTRIES + 1]);
    recorder.put(0, &[0; ENTRIES + 1]);
    recorder.put(1, &[1]);
    recorder.score();
    recorder.put(0, &[0; ENTRIES]);
    recorder.put(0, &[0; ENTRIES - 1]);
    recorder.look();
    recorder.put(1, &[1, 1]);
    recorder.put(1, &[]);
    recorder.put(0, &[]);
    recorder.look();
}

fn entries_in_force(recorder: &mut Recorder) {
    recorder
        .plan("7: 1,024 valid entries in force over several owners, waiting ones emptied first");
    recorder.load(plain(4, 4));
    let broken: Vec<u32> = (0..512).flat_map(|_| [0, 9]).collect();
    recorder.put(0, &broken);
    recorder.put(1, &broken[..1_022]);
    recorder.put(2, &[1]);
    recorder.put(3, &[2]);
    recorder.score();
    // What this owner holds already is replaced, not added.
    recorder.put(2, &[3]);
    recorder.put(2, &[3, 1]);
    recorder.put(3, &[9]);
    // A refused put leaves the waiting marks, an accepted one uses them.
    recorder.cut(1);
    recorder.put(2, &[1; 513]);
    recorder.put(2, &[1; 512]);
    recorder.score();
    recorder.cut(0);
    recorder.cut(2);
    recorder.put(0, &[0; ENTRIES]);
    recorder.put(1, &[0]);
    recorder.cut(0);
    recorder.put(1, &[0, 1, 2]);
    recorder.look();
}

fn one_owner_in_force(recorder: &mut Recorder) {
    recorder.plan("7: the owner's own waiting mark gives no room that its old route had not");
    recorder.load(plain(1, 2));
    recorder.put(0, &[0; ENTRIES]);
    recorder.cut(0);
    recorder.put(0, &[0; ENTRIES]);
    recorder.score();
    recorder.put(1, &[0]);
    recorder.cut(1);
    recorder.put(1, &[0]);
    recorder.put(0, &[0; ENTRIES - 1]);
    recorder.put(1, &[0]);
    recorder.put(0, &[0; ENTRIES]);
    recorder.look();
}

fn rooms(recorder: &mut Recorder) {
    recorder.plan("10: rooms one short, just enough and larger; 11 before 8 before 10");
    recorder.load(plain(4, 3));
    recorder.put(0, &[3, 0]);
    recorder.put(1, &[1, 9, 2]);
    for room in [0, 3, 4, 5, 40] {
        let _ = recorder.call(Call::Verdict { room });
        let _ = recorder.call(Call::Starts { room });
    }
    for room in [0, 1, 2, 3] {
        let owners = vec![0, 7, 0];
        let _ = recorder.call(Call::Blocks { owners, room });
        for owner in [0, 1] {
            for dest in [0, 3] {
                let step = Move::ListChange { source: 1, dest };
                let _ = recorder.call(Call::Move { owner, step, room });
            }
        }
    }
    // A cycle shorter than n needs n places all the same, and a cyclic plan has no blocks.
    recorder.put(2, &[1, 1]);
    for room in [0, 1, 3, 4, 5] {
        let _ = recorder.call(Call::Verdict { room });
        let _ = recorder.call(Call::Starts { room });
    }
    let owners = vec![0, 1, 2];
    let _ = recorder.call(Call::Blocks { owners, room: 0 });
}
