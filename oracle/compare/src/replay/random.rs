//! Random plans with questions after every step.

use super::recorder::Recorder;
use crate::random::{question, Setting, Shape};
use crate::rng::Rng;
use rules::Call;

const SEED: u64 = 2_026;

pub fn record(recorder: &mut Recorder) {
    let mut rng = Rng::new(SEED);
    for (shape, plans, steps) in [
        (Shape::Tiny, 90, 9),
        (Shape::Small, 60, 12),
        (Shape::Wide, 25, 14),
    ] {
        for number in 1..=plans {
            recorder.plan(&format!("random plan {number} of {plans}, {shape:?}"));
            record_plan(recorder, &mut rng, shape, steps);
        }
    }
}

fn record_plan(recorder: &mut Recorder, rng: &mut Rng, shape: Shape, steps: usize) {
    let setting = Setting::new(rng, shape);
    let _ = recorder.call(Call::Load(setting.load.clone()));
    for _ in 0..steps {
        let step = setting.step(rng, recorder.state().expect("loaded"));
        let _ = recorder.call(step);
        for _ in 0..rng.below(3) {
            let asked = question(rng, recorder.state().expect("loaded"));
            let _ = recorder.call(asked);
        }
    }
    recorder.look();
}
