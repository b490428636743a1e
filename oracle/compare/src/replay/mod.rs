//! The replay list: recorded calls and answers, for a side that has no Rust at hand.

mod call_limits;
mod differences;
mod format;
mod histories;
mod large;
mod load_limits;
mod marked;
mod moves;
mod parse;
mod random;
mod recorder;
mod stored_order;

pub use format::{answer_line, call_line};
pub use parse::{parse_call, CallLine};

use recorder::Recorder;

/// Where the list is stored, from the folder of this workspace.
pub const FILE: &str = "../crates/replay/stdin";

/// The whole list, header first; the same on every run.
pub fn list() -> String {
    let mut recorder = Recorder::default();
    marked::record(&mut recorder);
    differences::record(&mut recorder);
    load_limits::record(&mut recorder);
    call_limits::record(&mut recorder);
    moves::record(&mut recorder);
    histories::record(&mut recorder);
    stored_order::record(&mut recorder);
    random::record(&mut recorder);
    large::record(&mut recorder);
    header(&recorder) + recorder.text()
}

fn header(recorder: &Recorder) -> String {
    let longest = recorder.text().lines().map(str::len).max().unwrap_or(0);
    format!(
        "\
# Notekarip replay list: recorded calls and their answers.
# Made by `cargo run --offline --release --bin replay` in oracle/, from fixed seeds.
# The answers are those of the rules of document 01, written plainly in oracle/rules. Each was
# compared with the given Rust where that has an answer, its known deviations taken into account
# (docs/DIFFERENCES.md); refusals, shown line-ups, shown cycles and reports are ours alone.
# {plans} plans, {calls} calls; the greatest room is {room}, the longest line has {longest} bytes.
#
# Lines end with LF, fields are separated by one space, numbers are decimal without leading
# zeros; a line that begins with # is a comment. A list is its length and then its elements.
# `plan K` begins plan K, counted from 1, on a zeroed store. Calls:
#   load JOBS OWNERS durations expected from to (four lists)    reset    cut OWNER
#   put OWNER entries    score    verdict ROOM    starts ROOM    blocks ROOM owners
#   change OWNER SOURCE DEST ROOM    sublist OWNER START END DEST ROOM
#   swap OWNER A B C D ROOM    permute OWNER START END ROOM list
# `short S` before a call: slice S of the store (0 base, 1 spans, 2 edges, 3 routes, 4 times) is
# lent one word shorter than its constant. The line after a call is its answer:
#   = no K (refused)    load, reset, cut: = ok HARD SOFT
#   put: = ok HARD SOFT REPORT VISITS (0 skipped, 1 full, 2 cycle found, 3 incremental)
#   score: = score HARD SOFT MATCHES    verdict: = order list, or = cycle list
#   starts: = starts list    blocks: = blocks COUNT, then OWNER FIRST LAST LENGTH of each
#   moves: = moved QUICK FULL list (verdicts 0 or 1, then the new route)
",
        plans = recorder.plans(),
        calls = recorder.calls(),
        room = recorder.greatest_room(),
    )
}
