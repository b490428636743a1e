//! W1 to W12 on the rules and on the given Rust, with every number and mark of document 01.

use compare::marked::{marked, Mark, Marked, Step};
use given::{Given, Refresh};
use rules::{Call, Report, Score, Store};

/// Where the given Rust, along the history, is not as document 01 states: A and B.
const GIVEN_ENDS: [(&str, (i64, i64)); 2] = [("W5", (0, 5)), ("W6", (4, 12))];

#[test]
fn rules_are_as_stated() {
    for plan in marked() {
        let mut store = Store::default();
        store.load(&plan.load).unwrap();
        for step in &plan.steps {
            let report = put(&mut store, step);
            let scored = store.score().unwrap().0;
            assert_eq!(stated(scored), step.stated, "{}", plan.name);
            check_mark(&plan, step, &store, report);
        }
    }
}

fn put(store: &mut Store, step: &Step) -> Option<Report> {
    let Some(Call::Put(owner, entries)) = &step.put else {
        return None;
    };
    let (_, report) = store.put(*owner, entries).unwrap();
    Some(report)
}

fn stated(score: Score) -> (i64, i64) {
    (-score.hard, -score.soft)
}

fn check_mark(plan: &Marked, step: &Step, store: &Store, report: Option<Report>) {
    let state = store.plan().unwrap();
    match step.mark {
        Mark::None => {}
        Mark::Cyclic => assert!(state.times().cyclic, "{}", plan.name),
        Mark::Skipped => assert_eq!(report, Some(Report::Skipped), "{}", plan.name),
        Mark::BothCritical => assert_eq!(state.critical_jobs(), [0, 1], "{}", plan.name),
    }
}

#[test]
fn given_rust_is_as_stated_but_for_a_and_b() {
    for plan in marked() {
        let (mut given, _) = Given::load(&plan.load);
        let last = plan.steps.len() - 1;
        for (number, step) in plan.steps.iter().enumerate() {
            if let Some(Call::Put(owner, entries)) = &step.put {
                let (_, refresh) = given.put(*owner, entries);
                let skipped = refresh == Refresh::Skipped;
                assert!(skipped || step.mark != Mark::Skipped, "{}", plan.name);
            }
            let cyclic = given.kept().cyclic && given.fresh().cyclic;
            assert!(cyclic || step.mark != Mark::Cyclic, "{}", plan.name);
            assert_eq!(stated(given.fresh().score), step.stated, "{}", plan.name);
            assert_eq!(stated(given.evaluated().0), step.stated, "{}", plan.name);
            let known = GIVEN_ENDS.iter().find(|end| end.0 == plan.name);
            let kept = known.filter(|_| number == last);
            let kept = kept.map_or(step.stated, |end| end.1);
            assert_eq!(stated(given.kept().score), kept, "{}", plan.name);
        }
    }
}

/// The given Rust shows criticality only in blocks, so W12's jobs are put, broken apart.
#[test]
fn both_jobs_of_w12_are_critical_in_the_given_rust() {
    let mut plan = marked().pop().unwrap();
    assert_eq!(plan.name, "W12");
    plan.load.owners = 2;
    let (mut given, _) = Given::load(&plan.load);
    given.put(0, &[0]);
    given.put(1, &[1]);
    assert_eq!(given.blocks(&[0, 1]).len(), 2);
}
