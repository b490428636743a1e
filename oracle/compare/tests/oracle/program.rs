//! Document 01's printed run, byte for byte, and the lines that don't fit.

use compare::desk::GivenDesk;
use compare::marked::{PRINTED_INPUT, PRINTED_OUTPUT};
use compare::program::run;
use rules::Store;

fn by_rules(input: &str) -> String {
    run(input.as_bytes(), &mut Store::default())
}

#[test]
fn printed_run() {
    assert_eq!(by_rules(PRINTED_INPUT), PRINTED_OUTPUT);
}

/// Deviation B strikes at the end; everything before is the same.
#[test]
fn printed_run_on_the_given_rust() {
    let given = run(PRINTED_INPUT.as_bytes(), &mut GivenDesk::default());
    let expected = PRINTED_OUTPUT.replace("ok 0 -7", "ok 0 -12").replace(
        "score -4 -7\nstarts 1 0 0 0",
        "score -4 -12\nstarts 1 0 0 5",
    );
    assert_eq!(given, expected);
}

#[test]
fn lines_that_do_not_fit() {
    let good = "plan 2 1\ndur 1 1\ngo\n";
    let answered = "ok -2 -1\n";
    for bad in [
        "put 0 01\n",
        "put 0  1\n",
        "put 0 1 \n",
        "put\n",
        "put 0 -1\n",
        "put 0 18446744073709551616\n",
        "\n",
        "go\n",
        "fix 0 1\n",
        "exp 0 0\n",
        "change 0 0 0\n",
        "show 1\n",
        "cut\n",
        "show",
        "show\r\n",
    ] {
        let input = format!("{good}{bad}");
        assert_eq!(by_rules(&input), format!("{answered}bad 4\n"), "{bad:?}");
    }
    assert_eq!(by_rules("dur\n"), "bad 1\n");
    assert_eq!(by_rules("plan 2 1\ndur 1\n"), "bad 2\n");
    assert_eq!(by_rules(""), "");
}

#[test]
fn refusals_are_printed_and_the_run_goes_on() {
    let refused = "plan 2 1\ndur 1 1\nfix 2 0\ngo\nshow\ncrit\nput 0 1\ncut 7\n";
    assert_eq!(by_rules(refused), "no 4\nno 1\nno 1\nno 1\nno 1\n");
    let wide = "plan 1 99999999999\ndur 1\ngo\n";
    assert_eq!(by_rules(wide), "no 2\n");
    let wide = "plan 1 1\ndur 1\nfix 0 99999999999\ngo\nput 0 4294967296 0\nput 9999999999\n";
    assert_eq!(by_rules(wide), "ok -2 -1\nok 0 0\nno 5\n");
}

#[test]
fn input_over_the_byte_limit() {
    let mut input = String::from("plan 1 1\ndur 1\ngo\n");
    while input.len() + 6 <= 32_768 {
        input.push_str("put 0\n");
    }
    input.push_str(&"x".repeat(32_768 - input.len()));
    assert!(by_rules(&input).starts_with("ok -1 -1\nok 0 0\n"));
    input.push('x');
    assert_eq!(by_rules(&input), "bad 0\n");
}
