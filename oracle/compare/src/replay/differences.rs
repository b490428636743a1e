//! The smallest inputs of docs/DIFFERENCES.md.

use super::recorder::Recorder;
use crate::cases::{cases, DOCUMENT};

pub fn record(recorder: &mut Recorder) {
    for case in cases(DOCUMENT) {
        recorder.plan(&format!("docs/DIFFERENCES.md, {}", case.title));
        for call in case.calls() {
            let _ = recorder.call(call);
        }
        recorder.look();
    }
}
