//! Plans whose visits tell the stored order of a list: heads of one job come and go, and then
//! the job is pushed, so that its heads are queued in the order in which they are stored.

use super::recorder::Recorder;
use crate::rng::Rng;
use rules::Load;

const SEED: u64 = 77;
const PLANS: usize = 36;
const STEPS: usize = 9;

/// Job 0 is pushed by the long job 1; the others are its heads.
const HEADS: std::ops::Range<u32> = 2..9;
/// Owner 0 pushes; each of the others holds one head or two.
const OWNERS: std::ops::Range<u32> = 1..7;

pub fn record(recorder: &mut Recorder) {
    let mut rng = Rng::new(SEED);
    for number in 1..=PLANS {
        recorder.plan(&format!("stored order, {number} of {PLANS}"));
        recorder.load(load(&mut rng));
        for owner in OWNERS {
            hold(recorder, &mut rng, owner);
        }
        for _ in 0..STEPS {
            step(recorder, &mut rng);
            recorder.put(0, &[1, 0]);
            recorder.put(0, &[]);
        }
        recorder.look();
    }
}

/// Edges between the heads, forward along a ranking, so that the order of visits counts.
fn load(rng: &mut Rng) -> Load {
    let mut rank: Vec<u32> = HEADS.collect();
    rng.shuffle(&mut rank);
    let mut fixed = vec![(0, rank[0]), (0, rank[3])];
    for (place, &from) in rank.iter().enumerate() {
        let later = rank[place + 1..].iter().filter(|_| !rng.once_in(3));
        fixed.extend(later.map(|&to| (from, to)));
    }
    fixed.sort_by_key(|pair| pair.0);
    let (from, to) = fixed.into_iter().unzip();
    let mut durations: Vec<u64> = (0..HEADS.end).map(|_| 1 + rng.below(3) as u64).collect();
    durations[1] = 100;
    Load {
        jobs: HEADS.end,
        owners: OWNERS.end,
        durations,
        from,
        to,
        ..Load::default()
    }
}

/// Other heads in place of those that the owner held; an invalid entry parts two of them.
fn hold(recorder: &mut Recorder, rng: &mut Rng, owner: u32) {
    let mut head = || HEADS.start + rng.below(HEADS.len()) as u32;
    let entries = [0, head(), HEADS.end, 0, head()];
    let length = if rng.once_in(2) { 2 } else { 5 };
    recorder.put(owner, &entries[..length]);
}

fn step(recorder: &mut Recorder, rng: &mut Rng) {
    let owner = OWNERS.start + rng.below(OWNERS.len()) as u32;
    match rng.below(4) {
        0 => recorder.put(owner, &[]),
        1 => {
            for _ in 0..2 + rng.below(3) {
                recorder.cut(OWNERS.start + rng.below(OWNERS.len()) as u32);
            }
            hold(recorder, rng, owner);
        }
        _ => hold(recorder, rng, owner),
    }
}
