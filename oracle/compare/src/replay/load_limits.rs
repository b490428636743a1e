//! Refusals 2, 3 and 4 at the edges of their limits, in their order, and the smallest plans.

use super::call_limits::every_call;
use super::recorder::Recorder;
use rules::{Load, DURATION, FIXED, NO_OWNER};

pub fn record(recorder: &mut Recorder) {
    no_jobs(recorder);
    no_owners(recorder);
    load_sizes(recorder);
    load_tables(recorder);
    load_numbers(recorder);
    load_order(recorder);
}

/// Jobs of duration 1, nothing fixed, nothing expected.
pub fn plain(jobs: u32, owners: u32) -> Load {
    Load {
        jobs,
        owners,
        durations: vec![1; jobs as usize],
        ..Load::default()
    }
}

fn no_jobs(recorder: &mut Recorder) {
    recorder.plan("no jobs: every entry is invalid");
    recorder.load(plain(0, 2));
    recorder.look();
    recorder.put(0, &[0, u32::MAX]);
    recorder.look();
    recorder.cut(0);
    recorder.put(1, &[]);
    recorder.look();
    let mut fixed = plain(0, 2);
    fixed.from = vec![0];
    fixed.to = vec![0];
    recorder.load(fixed);
    recorder.look();
}

fn no_owners(recorder: &mut Recorder) {
    recorder.plan("no owners: 5 for each of them");
    recorder.load(plain(3, 0));
    recorder.look();
    for call in every_call() {
        let _ = recorder.call(call);
    }
    recorder.load(plain(0, 0));
    recorder.look();
    recorder.put(0, &[]);
}

fn load_sizes(recorder: &mut Recorder) {
    recorder.plan("2: jobs, owners and pairs at their limits; a refused load leaves the plan");
    recorder.load(plain(2, 1));
    recorder.put(0, &[1, 0]);
    for (jobs, owners) in [(512, 64), (513, 64), (512, 65), (512, 0), (0, 64), (0, 65)] {
        recorder.load(plain(jobs, owners));
        recorder.score();
    }
    for jobs in [513, u32::MAX] {
        recorder.load(Load {
            jobs,
            ..Load::default()
        });
    }
    recorder.load(plain(1, u32::MAX));
    for pairs in [FIXED, FIXED + 1] {
        recorder.load(Load {
            from: vec![0; pairs],
            to: vec![1; pairs],
            ..plain(2, 1)
        });
        recorder.look();
    }
}

fn load_tables(recorder: &mut Recorder) {
    recorder.plan("2: tables of another length");
    let good = || Load {
        expected: vec![0, NO_OWNER, 1],
        from: vec![0, 1],
        to: vec![1, 2],
        ..plain(3, 2)
    };
    recorder.load(good());
    recorder.put(1, &[0, 1, 2]);
    for length in [0, 2, 4] {
        recorder.load(Load {
            durations: vec![1; length],
            ..good()
        });
    }
    for length in [1, 2, 4] {
        recorder.load(Load {
            expected: vec![0; length],
            ..good()
        });
    }
    for length in [0, 1, 3] {
        recorder.load(Load {
            to: vec![2; length],
            ..good()
        });
        recorder.load(Load {
            from: vec![0; length],
            ..good()
        });
    }
    recorder.look();
    recorder.load(Load {
        expected: vec![],
        ..good()
    });
    recorder.put(1, &[0, 1, 2]);
    recorder.look();
}

fn load_numbers(recorder: &mut Recorder) {
    recorder.plan("3 and 4: durations, and `from` at its limits; `to` may be anything");
    for longest in [DURATION, DURATION + 1, u64::MAX] {
        recorder.load(Load {
            durations: vec![1, longest, 0],
            ..plain(3, 1)
        });
        recorder.score();
        recorder.load(Load {
            durations: vec![longest, DURATION, u64::MAX / longest],
            ..plain(3, 1)
        });
    }
    let lists: [(&[u32], &[u32]); 7] = [
        (&[0, 1, 2], &[1, 2, 3]),
        (&[0, 1, 3], &[1, 2, 0]),
        (&[u32::MAX], &[0]),
        (&[1, 0], &[2, 1]),
        (&[0, 2, 1], &[1, 1, 2]),
        (&[0, 0, 0, 2], &[1, 1, u32::MAX, 2]),
        (&[1, 1, 1], &[2, 0, 2]),
    ];
    for (from, to) in lists {
        recorder.load(Load {
            from: from.to_vec(),
            to: to.to_vec(),
            ..plain(3, 1)
        });
        recorder.look();
    }
}

fn load_order(recorder: &mut Recorder) {
    recorder.plan("load refuses with 2 before 3 before 4");
    let from = vec![9];
    let to = vec![0];
    let wrong = Load {
        durations: vec![u64::MAX],
        from,
        to,
        ..plain(1, 65)
    };
    recorder.load(wrong.clone());
    let wrong = Load { owners: 1, ..wrong };
    recorder.load(wrong.clone());
    let durations = vec![5];
    let wrong = Load { durations, ..wrong };
    recorder.load(wrong.clone());
    recorder.score();
    recorder.load(Load {
        from: vec![0],
        ..wrong
    });
    recorder.look();
}
