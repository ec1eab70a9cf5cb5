//! Each refusal by its number and its name, and which call gives it.

use ring_model::inspect::refusal_name;
use ring_model::kinds::{JOINDONE, LOOKUP};
use ring_model::record::Message;
use ring_model::RECORD_WORDS;

use super::{ask, holding, last};
use crate::common::{inside, message, outside, record, Run};

/// The names, in the order of their numbers.
pub const NAMES: [&str; 26] = [
    "record short",
    "not well formed",
    "no operation",
    "no hub",
    "not in ring",
    "not outside",
    "locked",
    "last hub",
    "no message",
    "not expected",
    "messages full",
    "tickets used up",
    "identifier count",
    "identifier twice",
    "no holder",
    "no way round",
    "output short",
    "no founder",
    "no sheet",
    "identifier too large",
    "room short",
    "revision lower",
    "price differs",
    "cards full",
    "route long",
    "places short",
];

fn refused(number: usize) -> String {
    format!("refused {number} ({})", NAMES[number - 1])
}

/// Hubs 0 (100) and 1 (200) at rest, hub 2 (300) outside.
fn two_at_rest() -> Vec<u32> {
    record(
        0,
        &[inside(100, 1, 1), inside(200, 0, 0), outside(300)],
        &[],
    )
}

#[test]
fn names_by_number() {
    for (name, number) in NAMES.iter().zip(1..) {
        assert_eq!(refusal_name(number), *name);
    }
}

/// Every line that asks something of the record, with words too few, then
/// with words that are not well formed.
#[test]
fn numbers_1_and_2() {
    for (lend, number) in [
        ("lend 1988", 2),
        ("lend 1990", 2),
        ("lend 1987", 1),
        ("lend 0", 1),
    ] {
        let text = refused(number);
        for (line, answer) in [
            ("000000000000000000", text.clone()),
            ("090000000000000000", text.clone()),
            ("row 0", "row 0: none".to_string()),
            ("roll 0 2", format!("roll from 0, {text}: - -")),
            ("owner 7", format!("owner of 7: {text}")),
            ("waiting", format!("waiting: {text}")),
        ] {
            assert_eq!(last(&[lend, line]), answer);
            assert_eq!(last(&["F000000064", "word 0 2", lend, line]), answer);
        }
    }
    assert_eq!(last(&["lend 1987", "F000000064"]), refused(1));
    assert_eq!(last(&["lend 1987", "F0"]), refused(1));
}

/// A refused founding, and a step that is refused, keep the ring.
#[test]
fn numbers_of_fresh_and_step() {
    let mut inspect = holding(&two_at_rest());
    for (line, number) in [
        ("F0", 13),
        ("F00000000100000001", 14),
        ("040000000000000000", 3),
        ("000000000300000000", 4),
        ("000000000200000000", 5),
        ("010000000000000001", 6),
        ("030000000000000001", 9),
    ] {
        assert_eq!(ask(&mut inspect, line), refused(number), "{line}");
        assert_eq!(inspect.lent(), two_at_rest());
    }
    assert_eq!(ask(&mut inspect, "020000000000000000"), "quiet");
    assert_eq!(ask(&mut inspect, "020000000000000000"), refused(7));
    let mut alone = holding(&Run::found(&[100]).words);
    assert_eq!(ask(&mut alone, "020000000000000000"), refused(8));
}

/// Records that no run reaches, or only a very long one.
#[test]
fn numbers_10_11_and_12() {
    let rows = [inside(100, 1, 1), inside(200, 0, 0)];
    let mut unexpected = holding(&record(0, &rows, &[message(JOINDONE, 0, 1, 0)]));
    assert_eq!(ask(&mut unexpected, "030000000000000001"), refused(10));
    let question = Message {
        hops: 3,
        ..message(LOOKUP, 0, 1, 150)
    };
    let mut full = holding(&record(1, &rows, &[question; 256]));
    assert_eq!(ask(&mut full, "000000000000000096"), refused(11));
    assert_eq!(ask(&mut full, "020000000000000000"), refused(11));
    let mut used_up = holding(&record(u32::MAX, &rows, &[]));
    assert_eq!(ask(&mut used_up, "000000000000000096"), refused(12));
}

/// A succ that never leads back has no way round, asked before 17; while a
/// newcomer enters, nobody holds its range.
#[test]
fn numbers_15_16_and_17() {
    let rows = [inside(100, 1, 1), inside(200, 0, 1)];
    let mut inspect = holding(&record(0, &rows, &[]));
    let answer = format!("roll from 0, {}: - - -", refused(16));
    assert_eq!(ask(&mut inspect, "roll 0 3"), answer);
    let answer = format!("roll from 0, {}:", refused(16));
    assert_eq!(ask(&mut inspect, "roll 0 0"), answer);
    let answer = "roll from 1, length 1: 1".to_string();
    assert_eq!(ask(&mut inspect, "roll 1 1"), answer);
    let answer = format!("roll from 1, {}:", refused(17));
    assert_eq!(ask(&mut inspect, "roll 1 0"), answer);
    let mut joining = holding(&Run::found(&[100, 200]).words);
    assert_eq!(ask(&mut joining, "010000000100000000"), "quiet");
    assert_eq!(ask(&mut joining, "030000000100000000"), "entered: hub 1");
    let answer = format!("owner of 150: {}", refused(15));
    assert_eq!(ask(&mut joining, "owner 150"), answer);
}

/// A damaged word is seen by every call, and its repair too.
#[test]
fn damage_and_repair() {
    let mut inspect = holding(&two_at_rest());
    for place in [0, 1, 5, 9, 25, 451, 452, RECORD_WORDS - 1] {
        let word = inspect.words()[place];
        let damage = format!("word {place} 9999");
        let repair = format!("word {place} {word}");
        assert_eq!(ask(&mut inspect, &damage), format!("word {place}: 9999"));
        assert_eq!(
            ask(&mut inspect, "waiting"),
            format!("waiting: {}", refused(2))
        );
        assert_eq!(ask(&mut inspect, &repair), format!("word {place}: {word}"));
        assert_eq!(inspect.lent(), two_at_rest());
    }
}

/// Words behind the record are never read, nor written by a call.
#[test]
fn words_behind_the_record() {
    let mut inspect = holding(&two_at_rest());
    for line in ["word 1988 77", "word 1989 4294967295", "lend 1990"] {
        ask(&mut inspect, line);
    }
    assert_eq!(ask(&mut inspect, "owner 150"), "owner of 150: hub 1");
    assert_eq!(ask(&mut inspect, "F000000064"), "quiet");
    assert_eq!(inspect.words()[RECORD_WORDS..], [77, u32::MAX]);
}

/// Words and counts are written whether or not they are lent.
#[test]
fn nothing_is_lent() {
    let mut inspect = holding(&two_at_rest());
    assert_eq!(ask(&mut inspect, "lend 0"), "words lent: 0");
    assert_eq!(ask(&mut inspect, "word 4 101"), "word 4: 101");
    assert_eq!(ask(&mut inspect, "count 3 5"), "count 3: 5");
    assert_eq!(ask(&mut inspect, "lend 1988"), "words lent: 1988");
    assert_eq!(ask(&mut inspect, "owner 101"), "owner of 101: hub 0");
    assert!(ask(&mut inspect, "counts").contains("entered 0, gone 5,"));
}
