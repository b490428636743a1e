//! Every refusal by hand, their order, and that a refused call changes nothing.

use compare::random::{question, Setting, Shape};
use compare::rng::Rng;
use given::{constraint, HardSoftScore, IncrementalConstraint, Solution};
use rules::{Call, Load, Move, Refusal, Slice, Store, DURATION};

fn load(jobs: u32, owners: u32) -> Load {
    Load {
        jobs,
        owners,
        durations: vec![1; jobs as usize],
        ..Load::default()
    }
}

fn number<T>(reply: Result<T, Refusal>) -> u8 {
    reply.map_or_else(Refusal::number, |_| 0)
}

/// Three jobs, two owners; owner 0 has [0,1,2], owner 1 an invalid entry.
fn opened() -> Store {
    let mut store = Store::default();
    store.load(&load(3, 2)).unwrap();
    store.put(0, &[0, 1, 2]).unwrap();
    store.put(1, &[9]).unwrap();
    store
}

#[test]
fn load_by_hand() {
    let refused = |load: Load| number(Store::default().load(&load));
    let pairs = |pairs: &[(u32, u32)]| Load {
        from: pairs.iter().map(|pair| pair.0).collect(),
        to: pairs.iter().map(|pair| pair.1).collect(),
        ..load(3, 1)
    };
    assert_eq!(refused(load(512, 64)), 0);
    assert_eq!(refused(load(513, 64)), 2);
    assert_eq!(refused(load(512, 65)), 2);
    assert_eq!(refused(pairs(&[(0, 1); 3_072])), 0);
    assert_eq!(refused(pairs(&[(0, 1); 3_073])), 2);
    assert_eq!(refused(pairs(&[(0, 9), (2, 0), (2, u32::MAX)])), 0);
    assert_eq!(refused(pairs(&[(3, 0)])), 4);
    assert_eq!(refused(pairs(&[(1, 0), (0, 1)])), 4);
    let with = |change: fn(&mut Load)| {
        let mut changed = pairs(&[(0, 1)]);
        change(&mut changed);
        refused(changed)
    };
    assert_eq!(with(|load| load.to.push(0)), 2);
    assert_eq!(with(|load| load.durations.push(0)), 2);
    assert_eq!(with(|load| load.expected.push(0)), 2);
    assert_eq!(with(|load| load.expected = vec![0; 3]), 0);
    assert_eq!(with(|load| load.durations[2] = DURATION), 0);
    assert_eq!(with(|load| load.durations[2] = DURATION + 1), 3);
    // 2 before 3 before 4.
    let mut wrong = pairs(&[(3, 0)]);
    wrong.durations[0] = u64::MAX;
    assert_eq!(refused(wrong.clone()), 3);
    wrong.owners = 65;
    assert_eq!(refused(wrong), 2);
}

#[test]
fn put_and_retract_by_hand() {
    let mut store = opened();
    assert_eq!(number(store.retract(1)), 0);
    assert_eq!(number(store.retract(2)), 5);
    assert_eq!(number(store.put(2, &[0; 1_025])), 5);
    assert_eq!(number(store.put(0, &[0; 1_025])), 6);
    assert_eq!(number(store.put(0, &[9; 1_025])), 6);
    let mut store = opened();
    assert_eq!(number(store.put(1, &[9; 1_024])), 0);
    assert_eq!(number(store.put(1, &[0; 1_021])), 0);
    assert_eq!(number(store.put(1, &[0; 1_022])), 7);
    store.retract(0).unwrap();
    assert_eq!(number(store.put(1, &[0; 1_024])), 0);
    assert_eq!(number(store.put(0, &[0])), 7);
}

#[test]
fn rooms_by_hand() {
    let store = opened();
    assert_eq!(number(store.verdict(2)), 10);
    assert_eq!(number(store.verdict(3)), 0);
    assert_eq!(number(store.starts(2)), 10);
    assert_eq!(number(store.starts(3)), 0);
    assert_eq!(number(store.blocks(&[0, 9], 0)), 10);
    assert_eq!(number(store.blocks(&[0, 9], 1)), 0);
    assert_eq!(number(store.blocks(&[0, 0], 1)), 10);
    // A cycle of one job needs n places too.
    let mut store = opened();
    store.put(0, &[0, 0]).unwrap();
    assert_eq!(number(store.verdict(2)), 10);
    assert_eq!(number(store.blocks(&[0], 0)), 0);
}

#[test]
fn moves_by_hand() {
    let store = opened();
    assert_eq!(number(store.list_change(0, 2, 3, 3)), 0);
    assert_eq!(number(store.list_change(0, 3, 0, 3)), 8);
    assert_eq!(number(store.list_change(0, 0, 4, 3)), 8);
    assert_eq!(number(store.list_change(0, 0, 0, 2)), 10);
    assert_eq!(number(store.list_change(0, 3, 0, 0)), 8);
    assert_eq!(number(store.list_change(1, 9, 9, 0)), 11);
    assert_eq!(number(store.list_change(2, 9, 9, 0)), 5);
    assert_eq!(number(store.sublist_change(0, 1, 3, 1, 3)), 0);
    assert_eq!(number(store.sublist_change(0, 1, 3, 2, 3)), 8);
    assert_eq!(number(store.sublist_change(0, 2, 1, 0, 3)), 8);
    assert_eq!(number(store.sublist_change(0, 0, 4, 0, 3)), 8);
    assert_eq!(number(store.sublist_swap(0, (0, 1), (1, 3), 3)), 0);
    assert_eq!(number(store.sublist_swap(0, (1, 3), (0, 1), 3)), 0);
    assert_eq!(number(store.sublist_swap(0, (0, 2), (1, 3), 3)), 8);
    assert_eq!(number(store.sublist_swap(0, (0, 1), (1, 4), 3)), 8);
    assert_eq!(number(store.sublist_swap(0, (1, 0), (1, 2), 3)), 8);
    assert_eq!(number(store.sublist_swap(0, (1, 1), (1, 2), 3)), 0);
    // On a tie of starts the first is the left one.
    assert_eq!(number(store.sublist_swap(0, (1, 2), (1, 1), 3)), 8);
    assert_eq!(number(store.permutation(0, 1, 3, &[1, 0], 3)), 0);
    assert_eq!(number(store.permutation(0, 1, 3, &[1, 1], 3)), 8);
    assert_eq!(number(store.permutation(0, 1, 3, &[1, 2], 3)), 8);
    assert_eq!(number(store.permutation(0, 1, 3, &[0], 3)), 8);
    assert_eq!(number(store.permutation(0, 3, 2, &[], 3)), 8);
    assert_eq!(number(store.permutation(0, 2, 4, &[0, 1], 3)), 8);
}

#[test]
fn store_first_then_loaded() {
    let mut store = Store::default();
    let step = Move::ListChange { source: 0, dest: 0 };
    let calls = [
        Call::Retract(9),
        Call::Put(9, vec![0; 1_025]),
        Call::Score,
        Call::Verdict { room: 0 },
        Call::Starts { room: 0 },
        Call::Blocks {
            owners: vec![],
            room: 0,
        },
        Call::Move {
            owner: 9,
            step,
            room: 0,
        },
    ];
    for call in &calls {
        assert_eq!(number(store.call(call)), 1, "{call:?}");
    }
    assert_eq!(number(store.reset()), 0);
    for slice in Slice::ALL {
        store.short = Some(slice);
        for call in &calls {
            assert_eq!(number(store.call(call)), 9, "{call:?}");
        }
        assert_eq!(number(store.reset()), 9);
        assert_eq!(number(store.load(&load(513, 65))), 9);
    }
    let mut store = opened();
    store.reset().unwrap();
    assert_eq!(number(store.score()), 1);
}

#[test]
fn refused_calls_change_nothing() {
    let mut rng = Rng::new(13);
    let mut refused = 0;
    for _ in 0..400 {
        let setting = Setting::new(&mut rng, Shape::Small);
        let mut store = Store::default();
        store.load(&setting.load).unwrap();
        for _ in 0..12 {
            let step = setting.step(&mut rng, store.plan().unwrap());
            store.call(&step).unwrap();
            let asked = question(&mut rng, store.plan().unwrap());
            let wrong = Load {
                owners: 65,
                ..setting.load.clone()
            };
            for call in [asked, Call::Put(64, vec![0]), Call::Load(wrong)] {
                let before = store.clone();
                refused += usize::from(store.call(&call).is_err());
                assert_eq!(store, before, "{call:?}");
            }
        }
    }
    assert!(refused > 10_000);
}

/// In place of 1 and 5 the given Rust answers a zero change, as docs/DIFFERENCES.md says.
#[test]
fn given_rust_answers_zero_where_1_and_5_are_due() {
    let mut solution = Solution::new(&load(2, 1));
    solution.routes[0] = vec![0, 1];
    let mut given = constraint(&solution);
    assert_eq!(given.on_insert(&solution, 0, 0), HardSoftScore::ZERO);
    assert_eq!(given.on_retract(&solution, 0, 0), HardSoftScore::ZERO);
    let loaded = given.initialize(&solution);
    assert_eq!(given.on_insert(&solution, 1, 0), HardSoftScore::ZERO);
    assert_eq!(given.on_retract(&solution, 1, 0), HardSoftScore::ZERO);
    assert_eq!(given.kept_score(), loaded);
}
