//! The program beside the rules on inputs of every kind. Usage: fuzz SECONDS SEED COMMAND...
//!
//! COMMAND runs the program. It ends at the first input that is answered otherwise, or by no ordinary end, and leaves
//! that input in a file.

use compare::inputs::input;
use compare::program::run;
use rules::Store;
use std::io::Write;
use std::process::{Command, ExitCode, Stdio};
use std::time::{Duration, Instant};

const INPUTS: u64 = 1_000_000;

/// What the program prints, or why it did not end well.
fn printed(command: &[String], input: &[u8]) -> Result<Vec<u8>, String> {
    let mut child = Command::new(&command[0])
        .args(&command[1..])
        .stdin(Stdio::piped())
        .stdout(Stdio::piped())
        .spawn()
        .map_err(|error| error.to_string())?;
    let mut lent = child.stdin.take().expect("its input");
    let bytes = input.to_vec();
    // The program may end before it has read everything: what it printed counts then.
    let writer = std::thread::spawn(move || lent.write_all(&bytes));
    let output = child
        .wait_with_output()
        .map_err(|error| error.to_string())?;
    let _ = writer.join();
    if output.status.success() {
        Ok(output.stdout)
    } else {
        Err(output.status.to_string())
    }
}

fn main() -> ExitCode {
    let words: Vec<String> = std::env::args().skip(1).collect();
    let seconds: u64 = words[0].parse().expect("seconds");
    let seed: u64 = words[1].parse().expect("a seed");
    let command = &words[2..];
    let end = Instant::now() + Duration::from_secs(seconds);
    let (mut number, mut bytes, mut lines) = (0, 0, 0);
    while number < INPUTS && Instant::now() < end {
        let asked = input(seed, number);
        let want = run(&asked, &mut Store::default()).into_bytes();
        let got = printed(command, &asked);
        if got.as_ref() != Ok(&want) {
            let file = std::env::temp_dir().join(format!("notekarip-{seed}-{number}"));
            std::fs::write(&file, &asked).expect("a file for the input");
            println!(
                "input {number} of seed {seed} is answered otherwise (it is in {}): {:?}",
                file.display(),
                got.err()
            );
            return ExitCode::FAILURE;
        }
        number += 1;
        bytes += asked.len();
        lines += want.iter().filter(|&&byte| byte == b'\n').count();
    }
    println!(
        "{number} inputs of seed {seed} ({bytes} bytes), {lines} lines printed, no difference"
    );
    ExitCode::SUCCESS
}
