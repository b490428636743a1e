//! Document 01's text program over either desk.

use crate::desk::{Desk, Response};
use crate::lines::{Lines, Reader, Request};
use rules::{Answer, Block, Call, Score, Verdict};
use std::fmt::Display;

const BYTES: usize = 32_768;

/// The whole output for an input of bytes.
pub fn run(input: &[u8], desk: &mut dyn Desk) -> String {
    if input.len() > BYTES {
        return "bad 0\n".into();
    }
    let mut reader = Reader::new(Lines::Program);
    let mut output = String::new();
    let mut rest = input;
    let mut number = 0;
    while !rest.is_empty() {
        number += 1;
        let end = rest.iter().position(|&byte| byte == b'\n');
        let request = end.and_then(|end| reader.read(&rest[..end]));
        let (Some(end), Some(request)) = (end, request) else {
            output.push_str(&format!("bad {number}\n"));
            return output;
        };
        for line in answer(request, desk) {
            output.push_str(&line);
            output.push('\n');
        }
        rest = &rest[end + 1..];
    }
    output
}

/// The lines that a request prints.
pub fn answer(request: Request, desk: &mut dyn Desk) -> Vec<String> {
    match request {
        Request::Gather => Vec::new(),
        Request::One(call) => printed(desk.call(&call)),
        Request::Show(room) => show(room, desk),
    }
}

/// A cyclic plan shows its cycle, another one its starts and its line-up.
fn show(room: usize, desk: &mut dyn Desk) -> Vec<String> {
    let mut lines = printed(desk.call(&Call::Score));
    match desk.call(&Call::Verdict { room }) {
        Response::Refused(_) => {}
        cycle @ Response::Answer(Answer::Verdict(Verdict::Cycle(_))) => {
            lines.extend(printed(cycle))
        }
        line_up => {
            lines.extend(printed(desk.call(&Call::Starts { room })));
            lines.extend(printed(line_up));
        }
    }
    lines
}

fn printed(response: Response) -> Vec<String> {
    let line = match response {
        Response::Refused(refusal) => format!("no {}", refusal.number()),
        Response::Panicked => "panics".into(),
        Response::NotStaged => "stages nothing".into(),
        Response::Answer(Answer::Change(change) | Answer::Put(change, _)) => parts("ok", change),
        Response::Answer(Answer::Score(score, _)) => parts("score", score),
        Response::Answer(Answer::Verdict(Verdict::LineUp(jobs))) => listed("order", &jobs),
        Response::Answer(Answer::Verdict(Verdict::Cycle(jobs))) => listed("cycle", &jobs),
        Response::Answer(Answer::Starts(starts)) => listed("starts", &starts),
        Response::Answer(Answer::Blocks(blocks)) => return block_lines(&blocks),
        Response::Answer(Answer::Moved(moved)) => {
            let verdicts = format!("moved {} {}", moved.quick as u8, moved.full as u8);
            listed(&verdicts, &moved.route)
        }
    };
    vec![line]
}

fn parts(word: &str, score: Score) -> String {
    format!("{word} {} {}", score.hard, score.soft)
}

fn listed<T: Display>(word: &str, numbers: &[T]) -> String {
    let fields: String = numbers.iter().map(|number| format!(" {number}")).collect();
    format!("{word}{fields}")
}

fn block_lines(blocks: &[Block]) -> Vec<String> {
    let mut lines = vec![format!("blocks {}", blocks.len())];
    lines.extend(blocks.iter().map(|block| {
        let Block {
            owner,
            first,
            last,
            length,
        } = block;
        format!("block {owner} {first} {last} {length}")
    }));
    lines
}
