//! Lines of a plan that mostly fit.

use crate::rng::Rng;

const BYTES: usize = 32_768;

/// A few jobs, and up to two dozen lines behind `go`.
pub fn small(rng: &mut Rng) -> Vec<u8> {
    let jobs = [0, 1, 2, 3, 4, 5, 6, 8, 12, 30][rng.below(10)];
    let owners = [0, 1, 1, 2, 3, 5, 64][rng.below(7)];
    let pairs = [0, 0, 1, 2, 4, 8][rng.below(6)];
    let mut lines = opening(rng, jobs, owners, pairs);
    for _ in 0..rng.below(25) {
        let entries = [0, 1, 2, 3, 5, 10, jobs][rng.below(7)];
        lines.push(line(rng, jobs, owners, entries));
    }
    text(&lines)
}

/// Sizes near the limits, and as many lines as about fit into the bytes.
pub fn large(rng: &mut Rng) -> Vec<u8> {
    let jobs = [100, 300, 511, 512, 512, 513][rng.below(6)];
    let owners = [1, 3, 20, 63, 64, 65][rng.below(6)];
    let pairs = [0, 10, 500, 1_000, 2_000][rng.below(5)];
    let most = [8_000, 20_000, 32_000, BYTES, BYTES + 1_000][rng.below(5)];
    let mut lines = opening(rng, jobs, owners, pairs);
    let mut bytes: usize = lines.iter().map(|line| line.len() + 1).sum();
    loop {
        let entries = [0, 1, 16, 100, 512, 1_024, 1_025][rng.below(7)];
        let line = line(rng, jobs, owners, entries);
        bytes += line.len() + 1;
        if bytes > most {
            return text(&lines);
        }
        lines.push(line);
    }
}

fn text(lines: &[String]) -> Vec<u8> {
    lines
        .iter()
        .flat_map(|line| format!("{line}\n").into_bytes())
        .collect()
}

fn numbers(list: &[usize]) -> String {
    list.iter().map(|number| format!(" {number}")).collect()
}

/// `plan`, `dur`, the fixed pairs, mostly from a lower job to a higher one, and `go`.
fn opening(rng: &mut Rng, jobs: usize, owners: usize, pairs: usize) -> Vec<String> {
    let durations: Vec<usize> = (0..jobs).map(|_| duration(rng)).collect();
    let mut lines = vec![
        format!("plan {jobs} {owners}"),
        format!("dur{}", numbers(&durations)),
    ];
    let forward = !rng.once_in(4);
    let mut fixed = Vec::new();
    for _ in 0..if jobs == 0 { 0 } else { pairs } {
        let stray = usize::from(rng.once_in(200));
        let (a, b) = (rng.below(jobs), rng.below(jobs + stray));
        fixed.push(if forward {
            (a.min(b), a.max(b))
        } else {
            (a, b)
        });
    }
    if forward {
        fixed.retain(|(a, b)| a != b);
    }
    if !rng.once_in(20) {
        fixed.sort_by_key(|pair| pair.0);
    }
    lines.extend(fixed.iter().map(|(a, b)| format!("fix {a} {b}")));
    lines.push("go".into());
    lines
}

fn duration(rng: &mut Rng) -> usize {
    match rng.below(100) {
        0 => 1 << 40,
        n => n % 8,
    }
}

/// A line behind `go`.
fn line(rng: &mut Rng, jobs: usize, owners: usize, entries: usize) -> String {
    let beyond = usize::from(owners == 0 || rng.once_in(20));
    let owner = rng.below(owners + beyond);
    match rng.below(20) {
        0..=9 => format!("put {owner}{}", numbers(&route(rng, jobs, entries))),
        10..=12 => format!("cut {owner}"),
        13..=16 => "show".into(),
        _ => "crit".into(),
    }
}

/// Mostly rising and without repeats, so that not every plan is cyclic.
fn route(rng: &mut Rng, jobs: usize, entries: usize) -> Vec<usize> {
    let bound = jobs.max(1) + usize::from(rng.once_in(30));
    let mut list: Vec<usize> = (0..entries).map(|_| rng.below(bound)).collect();
    if !rng.once_in(3) {
        list.sort_unstable();
        list.dedup();
    }
    if rng.once_in(4) {
        rng.shuffle(&mut list);
    }
    list
}
