//! The calls of the replay list on the library. Usage: replay FILE

use beside::library::{words, Library};
use beside::pair::reply_line;
use compare::replay::{parse_call, CallLine};
use std::process::ExitCode;

#[derive(Default)]
struct Replay {
    library: Library,
    calls: usize,
    differ: usize,
    skipped: usize,
}

impl Replay {
    fn call(&mut self, line: &str, answer: &str) {
        self.calls += 1;
        let CallLine { short, call } = parse_call(line);
        if !Library::has(&call) {
            self.skipped += 1;
            return;
        }
        if let Some(slice) = short {
            self.library.shorten(slice, words(slice) - 1);
        }
        let found = match self.library.call(&call) {
            Ok(reply) => reply_line(&reply),
            Err(difference) => difference.0,
        };
        if let Some(slice) = short {
            self.library.restore(slice);
        }
        if found != answer {
            self.differ += 1;
            println!("{line}\n{found}\ninstead of\n{answer}");
        }
    }
}

fn main() -> ExitCode {
    let file = std::env::args().nth(1).expect("the file of the list");
    let text = std::fs::read_to_string(file).expect("a list that can be read");
    let mut lines = text.lines().filter(|line| !line.starts_with('#'));
    let mut replay = Replay::default();
    while let Some(line) = lines.next() {
        if line.starts_with("plan ") {
            replay.library = Library::default();
        } else {
            replay.call(line, lines.next().expect("an answer"));
        }
    }
    let Replay {
        calls,
        differ,
        skipped,
        ..
    } = replay;
    println!("{calls} calls, {differ} differ, {skipped} skipped");
    ExitCode::from(u8::from(differ > 0))
}
