//! The examples of docs/INSPECT.md: each is answered as it stands there.

use super::refusals::NAMES;
use super::{last, printed};

const PAGE: &str = include_str!("../../../../docs/INSPECT.md");

/// The session at the top of the page.
#[test]
fn session() {
    let lines = [
        "F000000064000000C8",
        "010000000100000000",
        "row 1",
        "waiting",
    ];
    let expected = [
        "quiet",
        "quiet",
        "row 1: identifier 200, joining, lock taken, flag down, pred none, succ none, oldpred none",
        "waiting: messages 1, questions 0",
        "JOIN from 1 to 0: hub 1",
    ];
    let input = lines.map(|line| format!("{line}\n")).concat();
    assert_eq!(
        printed(input.as_bytes()),
        expected.map(|line| format!("{line}\n")).concat()
    );
    let shown = expected.map(|line| format!("    {line}\n")).concat();
    assert!(PAGE.contains(&shown));
    assert!(PAGE.contains(&lines.map(|line| format!("{line}\\n")).concat()));
}

/// The last line between the bars is answered so, and so it is on the page.
fn example(lines: &str, answer: &str) {
    let lines: Vec<&str> = lines.split('|').collect();
    assert_eq!(last(&lines), answer);
    assert!(PAGE.contains(&format!("`{answer}`")), "{answer}");
}

/// Hubs 0 (100) and 1 (200); hub 1 has joined.
const JOINED: &str = "F000000064000000C8|010000000100000000|030000000100000000|\
                      030000000000000001|030000000100000000|030000000000000000|\
                      030000000000000001";

#[test]
fn outcomes() {
    example(JOINED, "joined: hub 1");
    example("F000000064", "quiet");
    let asked = "F000000064000000C8|010000000100000000|030000000100000000";
    example(asked, "entered: hub 1");
    let found = format!("{asked}|000000000000000096|030000000000000000|030000000000000001");
    example(
        &format!("{found}|030000000000000001"),
        "found: hub 1, number 150, ticket 0, hops 1",
    );
    example(
        "F000000064000000C8|000000000100000001",
        "refused 5 (not in ring)",
    );
    let two = "F0000000640000012C000000C8|010000000200000000|010000000100000000";
    let turned = format!("{two}|030000000200000000|030000000100000000|030000000000000001");
    example(&turned, "join turned away: hub 1");
    let leaving = format!("{JOINED}|020000000100000000|030000000100000000|030000000000000001");
    let gone = format!("{leaving}|030000000100000000");
    example(&gone, "gone: hub 1");
    example(
        &format!("{gone}|030000000000000000|030000000000000001"),
        "left: hub 1",
    );
    let both = format!("{JOINED}|020000000000000000|020000000100000000|030000000100000000");
    let away = format!("{both}|030000000000000001|030000000000000001");
    example(&away, "leave turned away: hub 1");
}

#[test]
fn readings() {
    let at_rest = |line: &str| format!("{JOINED}|{line}");
    example(
        &at_rest("row 1"),
        "row 1: identifier 200, inside, lock free, flag down, pred 0, succ 0, oldpred none",
    );
    example("row 1", "row 1: none");
    example(&at_rest("roll 0 4"), "roll from 0, length 2: 0 1 - -");
    let astray = at_rest("word 16 1|roll 0 4");
    example(&astray, "roll from 0, refused 16 (no way round): - - - -");
    example(&at_rest("owner 150"), "owner of 150: hub 1");
    let entering = "F000000064000000C8|010000000100000000|030000000100000000|owner 150";
    example(entering, "owner of 150: refused 15 (no holder)");
    example("waiting", "waiting: refused 2 (not well formed)");
    let counts = "count 0 3|count 1 1|count 2 1|count 6 1|count 8 2|counts";
    example(
        counts,
        "counts: quiet 3, found 1, entered 1, gone 0, join turned away 0, \
         leave turned away 0, joined 1, left 0, refused 2",
    );
    example("lend 1987", "words lent: 1987");
    example("word 9 1", "word 9: 1");
    example("count 1 7", "count 1: 7");
}

/// A question and a NEWSUCC wait.
#[test]
fn messages() {
    let join = "F000000064000000C8|010000000100000000|030000000100000000|030000000000000001";
    let lines = format!("{join}|word 3 1|word 2 2|word 458 1|word 460 1|word 461 150|waiting");
    let lines: Vec<&str> = lines.split('|').collect();
    let answer = last(&lines);
    let expected = [
        "waiting: messages 2, questions 1",
        "NEWSUCC from 1 to 0",
        "LOOKUP from 0 to 1: number 150, ticket 0, hops 0",
    ];
    assert_eq!(answer, expected.join("\n"));
    for line in expected {
        assert!(PAGE.contains(&format!("`{line}`")), "{line}");
    }
}

#[test]
fn names_of_refusals() {
    for (name, number) in NAMES.iter().zip(1..) {
        assert!(PAGE.contains(&format!("| {number} | {name} |")), "{number}");
    }
}
