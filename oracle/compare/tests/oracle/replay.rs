//! The stored replay list: made anew it is the same, and it reads back to the same answers.

use compare::replay::{answer_line, list, parse_call};
use rules::Store;
use std::collections::BTreeMap;

const STORED: &str = include_str!("../../../../crates/replay/stdin");
const MOST_BYTES: usize = 1_500_000;

/// Plans and calls with their answers, as a replaying side meets them.
enum Entry<'a> {
    Plan(usize),
    Call(&'a str, &'a str),
}

fn entries() -> impl Iterator<Item = Entry<'static>> {
    let mut lines = STORED.lines().filter(|line| !line.starts_with('#'));
    std::iter::from_fn(move || {
        let line = lines.next()?;
        Some(match line.strip_prefix("plan ") {
            Some(number) => Entry::Plan(number.parse().unwrap()),
            None => Entry::Call(line, lines.next().unwrap()),
        })
    })
}

#[test]
fn stored_list_is_the_one_made_anew() {
    let anew = list();
    for (number, (stored, made)) in STORED.lines().zip(anew.lines()).enumerate() {
        assert_eq!(stored, made, "line {}", number + 1);
    }
    assert_eq!(STORED.len(), anew.len());
}

#[test]
fn stored_list_replays() {
    let mut store = Store::default();
    let mut plans = 0;
    for entry in entries() {
        match entry {
            Entry::Plan(number) => {
                plans += 1;
                assert_eq!(number, plans);
                store = Store::default();
            }
            Entry::Call(line, answer) => {
                let call = parse_call(line);
                store.short = call.short;
                let reply = store.call(&call.call);
                store.short = None;
                assert_eq!(answer_line(&reply), answer, "plan {plans}, {line}");
            }
        }
    }
}

#[test]
fn stored_list_has_everything() {
    let mut plans = 0;
    let mut calls = BTreeMap::new();
    let mut answers = BTreeMap::new();
    for entry in entries() {
        match entry {
            Entry::Plan(_) => plans += 1,
            Entry::Call(line, answer) => {
                let word = line.split(' ').next().unwrap();
                *calls.entry(word).or_insert(0) += 1;
                *answers.entry(answer_kind(answer)).or_insert(0) += 1;
            }
        }
    }
    assert!(plans >= 100 && calls.values().sum::<usize>() >= 3_000);
    for word in [
        "load", "reset", "cut", "put", "score", "verdict", "starts", "blocks", "change", "sublist",
        "swap", "permute", "short",
    ] {
        assert!(calls[word] >= 4, "{word}: {calls:?}");
    }
    for refusal in 1..=11 {
        assert!(answers[&format!("no {refusal}")] >= 5, "{answers:?}");
    }
    for kind in [
        "report 0",
        "report 1",
        "report 2",
        "report 3",
        "order",
        "cycle",
        "starts",
        "blocks",
        "moved 0 0",
        "moved 0 1",
        "moved 1 1",
    ] {
        assert!(answers[kind] >= 20, "{kind}: {answers:?}");
    }
}

/// What is counted of an answer: its word, with its number or verdicts.
fn answer_kind(answer: &str) -> String {
    let fields: Vec<&str> = answer.split(' ').collect();
    match fields[1..] {
        ["ok", _, _, report, _] => format!("report {report}"),
        ["no", number] => format!("no {number}"),
        ["moved", quick, full, ..] => format!("moved {quick} {full}"),
        [word, ..] => word.to_string(),
        [] => panic!("an empty answer"),
    }
}

#[test]
fn stored_list_is_easy_to_read() {
    assert!(STORED.len() <= MOST_BYTES);
    assert!(STORED.ends_with('\n') && STORED.is_ascii() && !STORED.contains('\r'));
    for line in STORED.lines().filter(|line| !line.starts_with('#')) {
        for field in line.split(' ') {
            let digits = field.strip_prefix('-').unwrap_or(field);
            let plain = digits == "0" || !digits.starts_with('0');
            assert!(!field.is_empty() && field != "-0" && plain, "{line}");
        }
    }
}
