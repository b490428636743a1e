//! docs/DIFFERENCES.md: every line of its tables, on both sides.

use compare::cases::{cases, Case, DOCUMENT};
use compare::desk::GivenDesk;
use rules::Store;

#[test]
fn both_answers_are_as_the_document_says() {
    for case in cases(DOCUMENT) {
        let given = case.run(&mut GivenDesk::default());
        let rules = case.run(&mut Store::default());
        for (place, row) in case.rows.iter().enumerate() {
            let at = format!("{}: {}", case.title, row.line);
            assert_eq!(given[place], row.given, "given Rust, {at}");
            assert_eq!(rules[place], row.rules, "rules, {at}");
        }
    }
}

#[test]
fn every_difference_has_a_case_that_differs() {
    let cases = cases(DOCUMENT);
    let differs = |case: &&Case| case.rows.iter().any(|row| row.given != row.rules);
    assert_eq!(cases.iter().filter(differs).count(), cases.len());
    for name in [
        "A.",
        "B1.",
        "B2.",
        "B3.",
        "C.",
        "D.",
        "Bad positions",
        "Broken routes",
    ] {
        assert!(
            cases.iter().any(|case| case.title.starts_with(name)),
            "{name}"
        );
    }
}

#[test]
fn differing_answers_are_bold() {
    let rows = cases(DOCUMENT).into_iter().flat_map(|case| case.rows);
    let differing = rows.filter(|row| row.given != row.rules).count();
    assert_eq!(DOCUMENT.matches("| **`").count(), differing);
}
