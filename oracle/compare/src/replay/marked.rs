//! W1 to W12 and the run that document 01 prints.

use super::recorder::Recorder;
use crate::lines::{Lines, Reader};
use crate::marked::{marked, PRINTED_INPUT};

pub fn record(recorder: &mut Recorder) {
    for plan in marked() {
        recorder.plan(&format!("document 01, {}", plan.name));
        recorder.load(plan.load);
        for put in plan.steps.into_iter().filter_map(|step| step.put) {
            let _ = recorder.call(put);
            recorder.score();
        }
        recorder.look();
    }
    record_printed_run(recorder);
}

fn record_printed_run(recorder: &mut Recorder) {
    recorder.plan("document 01, the printed run");
    let mut reader = Reader::new(Lines::Program);
    for line in PRINTED_INPUT.lines() {
        let request = reader.read(line.as_bytes()).expect("a line that fits");
        for call in request.calls() {
            let _ = recorder.call(call);
        }
    }
}
