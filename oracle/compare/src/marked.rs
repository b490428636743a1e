//! The twelve marked plans of document 01, W1 to W12, with every number and mark stated there.

use rules::{Call, Load};

pub struct Marked {
    pub name: &'static str,
    pub load: Load,
    pub steps: Vec<Step>,
}

pub struct Step {
    /// Nothing: the state right after load.
    pub put: Option<Call>,
    /// Hard penalty and makespan.
    pub stated: (i64, i64),
    pub mark: Mark,
}

#[derive(Clone, Copy, PartialEq, Eq)]
pub enum Mark {
    None,
    Cyclic,
    Skipped,
    /// Both jobs critical.
    BothCritical,
}

/// The run that document 01 prints, input and output.
pub const PRINTED_INPUT: &str = "plan 4 1\ndur 1 1 5 7\nfix 1 0\ngo\nput 0 2 3\ncrit\n\
    put 0 2 3 0 1\nshow\nput 0\nshow\ncut 5\n";
pub const PRINTED_OUTPUT: &str = "ok -4 -7\nok 2 -5\nblocks 1\nblock 0 0 1 2\nok -2 12\n\
    score -4 0\ncycle 0 1\nok 0 -7\nscore -4 -7\nstarts 1 0 0 0\norder 1 0 2 3\nno 5\n";

pub fn marked() -> Vec<Marked> {
    let one = || load(1, &[5], &[]);
    let two = || load(1, &[3, 4], &[]);
    let run = load(1, &[1, 1, 5, 7], &[(1, 0)]);
    let run_steps = vec![
        at_load(4, 7),
        put(0, &[2, 3], 2, 12),
        put(0, &[2, 3, 0, 1], 4, 0).marked(Mark::Cyclic),
        put(0, &[], 4, 7),
    ];
    let shared = Load { owners: 2, ..two() };
    let shared_steps = vec![
        put(0, &[0, 1], 0, 7),
        put(1, &[0, 1], 2, 7),
        put(0, &[], 0, 7).marked(Mark::Skipped),
    ];
    let expecting = Load {
        owners: 2,
        expected: vec![1],
        ..one()
    };
    let both_ways = load(0, &[0, 0], &[(0, 1), (1, 0)]);
    let one_way = load(0, &[0, 0], &[(0, 1)]);
    let both_critical = at_load(2, 0).marked(Mark::BothCritical);
    vec![
        plan("W1", load(0, &[], &[]), vec![at_load(0, 0)]),
        plan("W2", one(), vec![at_load(1, 5)]),
        plan("W3", one(), vec![put(0, &[0], 0, 5)]),
        plan("W4", one(), vec![put(0, &[0, 0], 2, 0)]),
        plan(
            "W5",
            one(),
            vec![put(0, &[0, 0, 0], 3, 0), put(0, &[], 1, 5)],
        ),
        plan("W6", run, run_steps),
        plan("W7", two(), vec![put(0, &[0, 9, 1], 1, 4)]),
        plan("W8", shared, shared_steps),
        plan("W9", load(0, &[3, 4], &[(0, 7)]), vec![at_load(3, 4)]),
        plan("W10", expecting, vec![put(0, &[0], 1, 5)]),
        plan("W11", both_ways, vec![at_load(4, 0).marked(Mark::Cyclic)]),
        plan("W12", one_way, vec![both_critical]),
    ]
}

fn load(owners: u32, durations: &[u64], fixed: &[(u32, u32)]) -> Load {
    Load {
        jobs: durations.len() as u32,
        owners,
        durations: durations.to_vec(),
        expected: Vec::new(),
        from: fixed.iter().map(|pair| pair.0).collect(),
        to: fixed.iter().map(|pair| pair.1).collect(),
    }
}

fn plan(name: &'static str, load: Load, steps: Vec<Step>) -> Marked {
    Marked { name, load, steps }
}

fn at_load(hard: i64, makespan: i64) -> Step {
    Step {
        put: None,
        stated: (hard, makespan),
        mark: Mark::None,
    }
}

fn put(owner: u32, entries: &[u32], hard: i64, makespan: i64) -> Step {
    Step {
        put: Some(Call::Put(owner, entries.to_vec())),
        ..at_load(hard, makespan)
    }
}

impl Step {
    fn marked(self, mark: Mark) -> Step {
        Step { mark, ..self }
    }
}
