//! Each refusal that a store of our own can meet; what refuses changes nothing.

use notekarip::{calls, sizes, Load, Owner, Refusal, Shown, Store};

const PLAN: Load<'static> = Load {
    jobs: 2,
    owners: 2,
    durations: &[3, 4],
    expected: &[],
    from: &[0],
    to: &[1],
};

fn loaded() -> Store {
    let mut store = Store::new();
    store.load(&PLAN).expect("a plan that fits");
    store
}

#[test]
fn not_loaded() {
    let mut store = Store::new();
    for _ in 0..2 {
        assert_eq!(store.put(Owner(0), &[]), Err(Refusal::NotLoaded));
        assert_eq!(store.retract(Owner(0)), Err(Refusal::NotLoaded));
        assert_eq!(store.verdict(), Err(Refusal::NotLoaded));
        assert_eq!(store.starts(), Err(Refusal::NotLoaded));
        store.load(&PLAN).expect("a plan that fits");
        store.reset().expect("never refused");
    }
}

#[test]
fn loads_that_do_not_fit() {
    let mut store = loaded();
    let before = store.clone();
    let long = [sizes::DURATION, sizes::DURATION + 1];
    for (load, refusal) in [
        (Load { jobs: 3, ..PLAN }, Refusal::Size),
        (Load { owners: 65, ..PLAN }, Refusal::Size),
        (
            Load {
                expected: &[0],
                ..PLAN
            },
            Refusal::Size,
        ),
        (Load { to: &[], ..PLAN }, Refusal::Size),
        (
            Load {
                durations: &long,
                ..PLAN
            },
            Refusal::Duration,
        ),
        (Load { from: &[2], ..PLAN }, Refusal::From),
        (
            Load {
                from: &[1, 0],
                to: &[0, 0],
                ..PLAN
            },
            Refusal::From,
        ),
    ] {
        assert_eq!(store.load(&load), Err(refusal));
    }
    assert_eq!(store, before);
}

#[test]
fn puts_that_do_not_fit() {
    let mut store = loaded();
    store.put(Owner(1), &[0]).expect("accepted");
    let before = store.clone();
    assert_eq!(store.put(Owner(2), &[]), Err(Refusal::Owner));
    assert_eq!(store.put(Owner(0), &[9; 1_025]), Err(Refusal::Entries));
    assert_eq!(store.put(Owner(0), &[0; 1_024]), Err(Refusal::InForce));
    assert_eq!(store, before);
    assert!(store.put(Owner(0), &[0; 1_023]).is_ok());
}

#[test]
fn room_and_places_beyond_the_answer() {
    let store = loaded();
    let mut jobs = [9; 3];
    assert_eq!(store.verdict_into(&mut jobs[..1]), Err(Refusal::Room));
    assert_eq!(jobs, [9; 3]);
    assert_eq!(store.verdict_into(&mut jobs), Ok(Shown::LineUp(2)));
    assert_eq!(jobs, [0, 1, 9]);
    let mut starts = [9; 3];
    assert_eq!(store.starts_into(&mut starts[..1]), Err(Refusal::Room));
    assert_eq!(store.starts_into(&mut starts), Ok(2));
    assert_eq!(starts, [0, 3, 9]);
}

#[test]
fn slices_of_the_callers_own() {
    let mut base = vec![7; sizes::BASE + 1];
    let (spans, edges) = ([7; sizes::SPANS], [7; sizes::EDGES]);
    let (routes, times) = ([7; sizes::ROUTES], [7; sizes::TIMES]);
    let reset = |base: &mut [u32]| {
        let mut nums = [7; 2];
        let code = calls::reset(base, &spans, &edges, &routes, &times, &mut nums);
        (code, nums)
    };
    assert_eq!(reset(&mut base[..sizes::BASE - 1]), (9, [0; 2]));
    assert_eq!(base, [7; sizes::BASE + 1]);
    assert_eq!(reset(&mut base), (0, [0; 2]));
    assert_eq!((base[0], &base[1..]), (0, &[7; sizes::BASE][..]));
}

#[test]
fn a_store_that_no_calls_left() {
    let (spans, edges) = ([0; sizes::SPANS], [0; sizes::EDGES]);
    let (routes, times) = ([0; sizes::ROUTES], [0; sizes::TIMES]);
    let (mut nums, mut told) = ([7; 2], [7; 3]);
    let base = [2; sizes::BASE];
    let code = calls::score(&base, &spans, &edges, &routes, &times, &mut nums, &mut told);
    assert_eq!(Refusal::check(code), Err(Refusal::BadStore));
    assert_eq!((nums, told), ([0; 2], [7; 3]));
}

#[test]
fn numbers_are_those_of_document_01() {
    for (place, refusal) in Refusal::ALL.into_iter().enumerate() {
        assert_eq!(refusal.number(), place as u32 + 1);
        assert_eq!(Refusal::check(refusal.number()), Err(refusal));
    }
}
