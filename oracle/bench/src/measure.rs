//! Passes over a row's calls, engine by engine in turn, and the ratio of their medians.

use crate::clock::thread_time;
use crate::engine::Engine;
use crate::rows::{Row, Work};
use std::hint::black_box;
use std::time::{Duration, Instant};

const TIME_FOR_EACH: Duration = Duration::from_millis(400);
const FEWEST_PASSES: usize = 15;

/// The median time of one call, in nanoseconds, for each engine that has an answer.
pub fn medians(engines: &mut [Box<dyn Engine>], row: &Row) -> Vec<Option<f64>> {
    for engine in engines.iter_mut() {
        engine.open(&row.workload);
    }
    check_answers(engines, row);
    let mut times = vec![Vec::new(); engines.len()];
    let all = TIME_FOR_EACH * engines.len() as u32;
    let begun = Instant::now();
    let mut passes = 0;
    while begun.elapsed() < all || passes < FEWEST_PASSES {
        for (engine, times) in engines.iter_mut().zip(&mut times) {
            times.extend(time(engine.as_mut(), row));
        }
        passes += 1;
    }
    times.into_iter().map(median).collect()
}

/// One pass, in nanoseconds for each call.
fn time(engine: &mut dyn Engine, row: &Row) -> Option<f64> {
    let begun = thread_time();
    black_box(pass(engine, &row.work))?;
    let time = thread_time() - begun;
    Some(time.as_nanos() as f64 / row.work.calls() as f64)
}

/// A pass ends where it began, so this one only warms up and compares.
fn check_answers(engines: &mut [Box<dyn Engine>], row: &Row) {
    let answers: Vec<u64> = engines
        .iter_mut()
        .filter_map(|engine| pass(engine.as_mut(), &row.work))
        .collect();
    let same = answers.iter().all(|&answer| answer == answers[0]);
    assert!(same, "{}: the engines answer differently", row.name);
}

/// All calls of a row once; a sum over the answers tells whether two engines agree.
fn pass(engine: &mut dyn Engine, work: &Work) -> Option<u64> {
    if !engine.has(work) {
        return None;
    }
    let mut sum = 0;
    match work {
        Work::Load => add_score(&mut sum, engine.load()),
        Work::Puts(puts) => {
            for (owner, entries) in puts {
                add_score(&mut sum, engine.put(*owner, entries));
            }
        }
        Work::Quick(moves) => {
            for &(owner, source, dest) in moves {
                add(&mut sum, u64::from(engine.quick_check(owner, source, dest)));
            }
        }
        Work::Full(moves) => {
            for &(owner, source, dest) in moves {
                add(&mut sum, u64::from(engine.full_check(owner, source, dest)));
            }
        }
        Work::Both(moves) => {
            for &(owner, source, dest) in moves {
                let (quick, full) = engine.both_checks(owner, source, dest);
                add(&mut sum, u64::from(quick) * 2 + u64::from(full));
            }
        }
        Work::Blocks(owners) => add(&mut sum, engine.blocks(owners) as u64),
        Work::Verdict => add(&mut sum, engine.verdict() as u64),
    }
    Some(sum)
}

fn add(sum: &mut u64, answer: u64) {
    *sum = sum.wrapping_mul(31).wrapping_add(answer);
}

fn add_score(sum: &mut u64, (hard, soft): (i64, i64)) {
    add(sum, hard as u64);
    add(sum, soft as u64);
}

fn median(mut times: Vec<f64>) -> Option<f64> {
    times.sort_by(f64::total_cmp);
    times.get(times.len() / 2).copied()
}

pub fn print_head(engines: &[Box<dyn Engine>]) {
    let mut line = format!("{:52}", "n = 512, 64 owners; median ns of a call");
    for (place, engine) in engines.iter().enumerate() {
        line += &format!(" {:>14}", engine.name());
        if place > 0 {
            line += "  ratio";
        }
    }
    println!("{line}");
}

/// A ratio stands only where the first engine has an answer too.
pub fn print_row(row: &Row, medians: &[Option<f64>]) {
    let mut line = format!("{:52} {:>14}", row.name, cell(medians[0]));
    for &median in &medians[1..] {
        let ratio = median.zip(medians[0]).map(|(time, first)| time / first);
        let ratio = ratio.map_or("none".into(), |ratio| format!("{ratio:.2}"));
        line += &format!(" {:>14} {ratio:>6}", cell(median));
    }
    println!("{line}  {}", row.note);
}

fn cell(median: Option<f64>) -> String {
    median.map_or("none".into(), |time| format!("{time:.0}"))
}

#[cfg(test)]
mod tests {
    use super::*;
    use crate::given_rust::GivenRust;
    use crate::rows::rows;

    /// A second engine stands beside the first, and every row comes back to where it began.
    #[test]
    fn two_engines_agree_on_every_row() {
        let mut engines: Vec<Box<dyn Engine>> = vec![
            Box::new(GivenRust::default()),
            Box::new(GivenRust::default()),
        ];
        for row in rows() {
            for engine in &mut engines {
                engine.open(&row.workload);
            }
            pass(engines[0].as_mut(), &row.work);
            check_answers(&mut engines, &row);
        }
    }

    #[test]
    fn median_of_an_odd_number() {
        assert_eq!(median(vec![5.0, 1.0, 3.0]), Some(3.0));
    }
}
