//! Document 01's twelve marked plans, through the safe calls.

use notekarip::{Load, Owner, Report, Store, Verdict};

/// Hard penalty and makespan.
fn scored(store: &Store) -> (i64, i64) {
    let (score, matches) = store.score().expect("loaded");
    let makespan = -score.soft;
    assert_eq!(matches as i64, -score.hard + i64::from(makespan > 0));
    (-score.hard, makespan)
}

fn loaded(load: Load<'_>) -> Store {
    let mut store = Store::new();
    let score = store.load(&load).expect("a plan that fits");
    assert_eq!((-score.hard, -score.soft), scored(&store));
    store
}

/// Puts a route and answers the score after it; the change is the difference.
fn put(store: &mut Store, owner: u32, entries: &[u32]) -> ((i64, i64), Report) {
    let (hard, makespan) = scored(store);
    let (change, report) = store.put(Owner(owner), entries).expect("accepted");
    let after = scored(store);
    assert_eq!(
        (hard - after.0, makespan - after.1),
        (change.hard, change.soft)
    );
    (after, report)
}

const ONE: Load<'static> = Load {
    jobs: 1,
    owners: 1,
    durations: &[5],
    expected: &[],
    from: &[],
    to: &[],
};

const TWO: Load<'static> = Load {
    jobs: 2,
    owners: 1,
    durations: &[3, 4],
    expected: &[],
    from: &[],
    to: &[],
};

#[test]
fn w1_no_jobs() {
    let store = loaded(Load::default());
    assert_eq!(scored(&store), (0, 0));
    assert_eq!(store.verdict(), Ok(Verdict::LineUp(vec![])));
    assert_eq!(store.starts(), Ok(vec![]));
}

#[test]
fn w2_w3_w4_w5_one_job() {
    let mut store = loaded(ONE);
    assert_eq!(scored(&store), (1, 5));
    assert_eq!(put(&mut store, 0, &[0]), ((0, 5), Report::Skipped));
    assert_eq!(put(&mut store, 0, &[0, 0]), ((2, 0), Report::CycleFound));
    assert_eq!(put(&mut store, 0, &[0, 0, 0]).0, (3, 0));
    assert_eq!(put(&mut store, 0, &[]), ((1, 5), Report::Full));
}

#[test]
fn w7_an_invalid_entry_breaks_the_chain() {
    let mut store = loaded(TWO);
    assert_eq!(put(&mut store, 0, &[0, 9, 1]).0, (1, 4));
}

#[test]
fn w8_an_edge_of_two_owners() {
    let mut store = loaded(Load { owners: 2, ..TWO });
    put(&mut store, 0, &[0, 1]);
    assert_eq!(put(&mut store, 1, &[0, 1]), ((2, 7), Report::Skipped));
    assert_eq!(put(&mut store, 0, &[]), ((0, 7), Report::Skipped));
}

#[test]
fn w9_a_fixed_pair_that_leads_nowhere() {
    let (from, to) = (&[0], &[7]);
    assert_eq!(scored(&loaded(Load { from, to, ..TWO })), (3, 4));
}

#[test]
fn w10_another_owner_than_expected() {
    let expected = &[1];
    let mut store = loaded(Load {
        owners: 2,
        expected,
        ..ONE
    });
    assert_eq!(put(&mut store, 0, &[0]).0, (1, 5));
}

#[test]
fn w11_w12_durations_of_nothing() {
    let nothing = Load {
        durations: &[0, 0],
        ..TWO
    };
    let (from, to) = (&[0, 1], &[1, 0]);
    let store = loaded(Load {
        from,
        to,
        ..nothing
    });
    assert_eq!(scored(&store), (4, 0));
    assert_eq!(store.verdict(), Ok(Verdict::Cycle(vec![0, 1])));
    let (from, to) = (&[0], &[1]);
    let store = loaded(Load {
        from,
        to,
        ..nothing
    });
    assert_eq!(scored(&store), (2, 0));
    assert_eq!(store.verdict(), Ok(Verdict::LineUp(vec![0, 1])));
}

#[test]
fn a_waiting_owner_is_emptied_by_the_next_put() {
    let mut store = loaded(Load { owners: 2, ..TWO });
    put(&mut store, 0, &[0, 1]);
    store.retract(Owner(0)).expect("an owner of the plan");
    assert_eq!(scored(&store), (0, 7));
    assert_eq!(put(&mut store, 1, &[1]).0, (1, 4));
}
