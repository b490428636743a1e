//! The rows of the speed table.

use crate::puts::{cycle_and_back, job_moved, neighbours_swapped, note, other_order, to_the_hub};
use compare::rng::Rng;
use compare::workloads::{hub, layered, one_owner, ranked, Workload, JOBS, OWNERS};
use given::{GivenMove, Solution};

const SEED: u64 = 7;

/// Owner, source and dest of a list change.
pub type Change = (u32, u32, u32);

pub enum Work {
    Load,
    Puts(Vec<(u32, Vec<u32>)>),
    Quick(Vec<Change>),
    Full(Vec<Change>),
    Both(Vec<Change>),
    Blocks(Vec<u32>),
    Verdict,
}

impl Work {
    pub fn calls(&self) -> usize {
        match self {
            Work::Load | Work::Blocks(_) | Work::Verdict => 1,
            Work::Puts(puts) => puts.len(),
            Work::Quick(moves) | Work::Full(moves) | Work::Both(moves) => moves.len(),
        }
    }
}

pub struct Row {
    pub name: String,
    pub workload: Workload,
    pub work: Work,
    pub note: String,
}

type MakeWorkload = fn(u64) -> Workload;
type MakePuts = fn(&Workload) -> Vec<(u32, Vec<u32>)>;

/// Routes of 8, over two kinds of fixed lists.
const PLANS: [(&str, MakeWorkload); 2] = [("staged", layered), ("ranked", ranked)];

pub fn rows() -> Vec<Row> {
    let mut rows = put_rows();
    rows.extend(PLANS.map(|(plan, workload)| load_row(plan, workload)));
    rows.extend(PLANS.map(|(plan, workload)| line_up_row(plan, workload)));
    rows.push(cycle_row());
    rows.extend(check_rows());
    rows.extend(PLANS.map(|(plan, workload)| blocks_row(plan, workload)));
    let name = "hub of 400 children: put of an edge there, and back";
    rows.push(put_row(name, hub, to_the_hub));
    rows
}

fn put_rows() -> Vec<Row> {
    let mut rows = Vec::new();
    let mut on_both = |name: &str, puts: MakePuts| {
        let row = |(plan, workload)| put_row(&format!("{name}, {plan}"), workload, puts);
        rows.extend(PLANS.map(row));
    };
    on_both("put, one job moved", job_moved);
    on_both("put, other order of 8 jobs", other_order);
    on_both("put that finds a cycle, and back", cycle_and_back);
    let name = "put, one owner of 512, neighbour swap";
    rows.push(put_row(name, one_owner, neighbours_swapped));
    rows
}

fn check_rows() -> Vec<Row> {
    let routes: [(&str, MakeWorkload); 3] = [
        ("route of 8, staged", layered),
        ("route of 8, ranked", ranked),
        ("route of 512", one_owner),
    ];
    let checks: [(&str, fn(Vec<Change>) -> Work); 3] = [
        ("quick check", Work::Quick),
        ("full check", Work::Full),
        ("both checks", Work::Both),
    ];
    let mut rows = Vec::new();
    for (check, work) in checks {
        rows.extend(routes.map(|(route, workload)| {
            let name = format!("{check}, {route}");
            check_row(name, workload, work)
        }));
    }
    rows
}

fn put_row(name: &str, workload: MakeWorkload, puts: MakePuts) -> Row {
    let workload = workload(SEED);
    let puts = puts(&workload);
    Row {
        name: name.to_string(),
        note: note(&workload, &puts),
        workload,
        work: Work::Puts(puts),
    }
}

fn load_row(plan: &str, workload: MakeWorkload) -> Row {
    let mut workload = workload(SEED);
    workload.routes = vec![Vec::new(); OWNERS];
    Row {
        name: format!("load, 1,500 pairs, {plan}"),
        workload,
        work: Work::Load,
        note: String::new(),
    }
}

/// What the note of a row says where the first engine has no answer.
const NO_VERDICT: &str = "the given Rust shows no verdict";

fn line_up_row(plan: &str, workload: MakeWorkload) -> Row {
    Row {
        name: format!("verdict, line-up, {plan}"),
        workload: workload(SEED),
        work: Work::Verdict,
        note: NO_VERDICT.to_string(),
    }
}

/// The first route of 8 leads back to its first job.
fn cycle_row() -> Row {
    let mut workload = ranked(SEED);
    let first = workload.routes[0][0];
    workload.routes[0].push(first);
    Row {
        name: "verdict, cycle, ranked".to_string(),
        workload,
        work: Work::Verdict,
        note: NO_VERDICT.to_string(),
    }
}

fn check_row(name: String, workload: MakeWorkload, work: fn(Vec<Change>) -> Work) -> Row {
    let workload = workload(SEED);
    let moves = list_changes(&workload);
    let mut graph = opened(&workload).graph();
    let closes = |&&(owner, source, dest): &&Change| {
        let step = GivenMove::ListChange(source as usize, dest as usize);
        graph.full_check(owner as usize, &step)
    };
    let cyclic = moves.iter().filter(closes).count();
    Row {
        name,
        workload,
        note: format!("{cyclic} of {} cyclic", moves.len()),
        work: work(moves),
    }
}

/// Of any owner that has a route, to any place of it.
fn list_changes(workload: &Workload) -> Vec<Change> {
    let mut rng = Rng::new(SEED);
    let routed = workload.routes.iter().filter(|route| !route.is_empty());
    let (owners, length) = (routed.count(), workload.routes[0].len());
    assert_eq!(owners * length, JOBS);
    let mut change = |_| {
        let owner = rng.below(owners) as u32;
        (
            owner,
            rng.below(length) as u32,
            rng.below(length + 1) as u32,
        )
    };
    (0..if length > 8 { 64 } else { 256 })
        .map(&mut change)
        .collect()
}

fn blocks_row(plan: &str, workload: MakeWorkload) -> Row {
    let workload = workload(SEED);
    let solution = opened(&workload);
    let owners: Vec<usize> = (0..OWNERS).collect();
    let found = solution
        .graph()
        .blocks(&solution.signed_durations(), &owners);
    Row {
        name: format!("blocks of all owners, {plan}"),
        workload,
        work: Work::Blocks((0..OWNERS as u32).collect()),
        note: format!("{} blocks", found.len()),
    }
}

/// The workload's plan with its routes, as the given Rust looks at it.
pub fn opened(workload: &Workload) -> Solution {
    let mut solution = Solution::new(&workload.load);
    solution.routes = workload.routes.clone();
    solution
}
