//! Calls and answers as lines of the replay list.

use crate::side_by_side::Reply;
use rules::{Answer, Block, Call, Load, Move, Moved, Report, Slice, Verdict};
use std::fmt::Display;

pub fn call_line(short: Option<Slice>, call: &Call) -> String {
    let prefix = match short {
        Some(slice) => format!("short {} ", slice as usize),
        None => String::new(),
    };
    prefix + &call_fields(call)
}

fn call_fields(call: &Call) -> String {
    match call {
        Call::Load(load) => load_fields(load),
        Call::Reset => "reset".into(),
        Call::Retract(owner) => format!("cut {owner}"),
        Call::Put(owner, entries) => format!("put {owner} {}", list(entries)),
        Call::Score => "score".into(),
        Call::Verdict { room } => format!("verdict {room}"),
        Call::Starts { room } => format!("starts {room}"),
        Call::Blocks { owners, room } => format!("blocks {room} {}", list(owners)),
        Call::Move { owner, step, room } => move_fields(*owner, step, *room),
    }
}

fn load_fields(load: &Load) -> String {
    let Load { jobs, owners, .. } = load;
    let durations = list(&load.durations);
    let expected = list(&load.expected);
    let (from, to) = (list(&load.from), list(&load.to));
    format!("load {jobs} {owners} {durations} {expected} {from} {to}")
}

fn move_fields(owner: u32, step: &Move, room: usize) -> String {
    match step {
        Move::ListChange { source, dest } => format!("change {owner} {source} {dest} {room}"),
        Move::SublistChange { start, end, dest } => {
            format!("sublist {owner} {start} {end} {dest} {room}")
        }
        Move::SublistSwap {
            first: (a, b),
            second: (c, d),
        } => format!("swap {owner} {a} {b} {c} {d} {room}"),
        Move::Permutation {
            start,
            end,
            list: numbers,
        } => format!("permute {owner} {start} {end} {room} {}", list(numbers)),
    }
}

pub fn answer_line(reply: &Reply) -> String {
    let fields = match reply {
        Err(refusal) => format!("no {}", refusal.number()),
        Ok(Answer::Change(change)) => format!("ok {} {}", change.hard, change.soft),
        Ok(Answer::Put(change, report)) => {
            let (kind, visits) = (report_number(*report), report.visits());
            format!("ok {} {} {kind} {visits}", change.hard, change.soft)
        }
        Ok(Answer::Score(score, matches)) => {
            format!("score {} {} {matches}", score.hard, score.soft)
        }
        Ok(Answer::Verdict(Verdict::LineUp(jobs))) => format!("order {}", list(jobs)),
        Ok(Answer::Verdict(Verdict::Cycle(jobs))) => format!("cycle {}", list(jobs)),
        Ok(Answer::Starts(starts)) => format!("starts {}", list(starts)),
        Ok(Answer::Blocks(blocks)) => blocks_fields(blocks),
        Ok(Answer::Moved(moved)) => moved_fields(moved),
    };
    format!("= {fields}")
}

fn report_number(report: Report) -> u8 {
    match report {
        Report::Skipped => 0,
        Report::Full => 1,
        Report::CycleFound => 2,
        Report::Incremental(_) => 3,
    }
}

fn blocks_fields(blocks: &[Block]) -> String {
    let record = |block: &Block| {
        let Block {
            owner,
            first,
            last,
            length,
        } = block;
        format!(" {owner} {first} {last} {length}")
    };
    let records: String = blocks.iter().map(record).collect();
    format!("blocks {}{records}", blocks.len())
}

fn moved_fields(moved: &Moved) -> String {
    let (quick, full) = (moved.quick as u8, moved.full as u8);
    format!("moved {quick} {full} {}", list(&moved.route))
}

/// The length, then the elements.
fn list<T: Display>(numbers: &[T]) -> String {
    let elements: String = numbers.iter().map(|number| format!(" {number}")).collect();
    format!("{}{elements}", numbers.len())
}
