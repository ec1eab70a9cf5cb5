//! Each form of answer in docs/INSPECT.md.

use ring_model::kinds::LOOKUP;
use ring_model::record::{Message, Row, JOINING, LEAVING, WANTING_TO_LEAVE};

use super::{ask, holding, last};
use crate::common::{inside, message, outside, record, Run};

/// Hubs 0 (100) and 1 (200) at rest, hub 2 (300) outside.
fn two_at_rest() -> Vec<u32> {
    Run::with_members(&[100, 200, 300], &[1]).words
}

/// A join, a question over the newcomer, a join and a leave turned away, and
/// a leave that goes through: the eight answers, then their counts.
#[test]
fn outcomes_and_counts() {
    let mut inspect = holding(&Run::found(&[100, 200, 300]).words);
    for (line, answer) in [
        ("010000000100000000", "quiet"),
        ("010000000200000000", "quiet"),
        ("030000000100000000", "entered: hub 1"),
        ("030000000200000000", "quiet"),
        ("000000000000000096", "quiet"),
        ("030000000000000001", "quiet"),
        ("030000000000000002", "join turned away: hub 2"),
        ("030000000000000000", "quiet"),
        (
            "030000000000000001",
            "found: hub 1, number 150, ticket 0, hops 1",
        ),
        ("030000000100000000", "quiet"),
        ("030000000000000000", "quiet"),
        ("030000000000000001", "joined: hub 1"),
        ("020000000100000000", "quiet"),
        ("020000000000000000", "quiet"),
        ("030000000100000000", "quiet"),
        ("030000000000000001", "quiet"),
        ("030000000000000001", "leave turned away: hub 1"),
    ] {
        assert_eq!(ask(&mut inspect, line), answer, "{line}");
    }
    let counts = "counts: quiet 12, found 1, entered 1, gone 0, join turned away 1, \
                  leave turned away 1, joined 1, left 0, refused 0";
    assert_eq!(ask(&mut inspect, "counts"), counts);
}

#[test]
fn a_leave_that_goes_through() {
    let mut inspect = holding(&two_at_rest());
    for (line, answer) in [
        ("020000000100000000", "quiet"),
        ("030000000100000000", "quiet"),
        ("030000000000000001", "quiet"),
        ("030000000100000000", "gone: hub 1"),
        ("030000000000000000", "quiet"),
        ("030000000000000001", "left: hub 1"),
        ("030000000100000000", "quiet"),
        ("030000000100000000", "refused 9 (no message)"),
    ] {
        assert_eq!(ask(&mut inspect, line), answer, "{line}");
    }
    let counts = "counts: quiet 5, found 0, entered 0, gone 1, join turned away 0, \
                  leave turned away 0, joined 0, left 1, refused 1";
    assert_eq!(ask(&mut inspect, "counts"), counts);
}

/// Every state, both locks, both flags, pointers and none.
#[test]
fn rows() {
    let with = |state, row: Row| Row {
        state,
        lock: true,
        ..row
    };
    let flagged = Row {
        lock: true,
        flag: true,
        oldpred: 4,
        ..inside(u32::MAX, 1, 0)
    };
    let rows = [
        inside(0, 1, 2),
        flagged,
        outside(300),
        with(JOINING, outside(400)),
        with(WANTING_TO_LEAVE, inside(500, 0, 5)),
        with(LEAVING, inside(600, 3, 4)),
    ];
    let mut inspect = holding(&record(0, &rows, &[]));
    let texts = [
        "identifier 0, inside, lock free, flag down, pred 1, succ 2, oldpred none",
        "identifier 4294967295, inside, lock taken, flag up, pred 1, succ 0, oldpred 4",
        "identifier 300, outside, lock free, flag down, pred none, succ none, oldpred none",
        "identifier 400, joining, lock taken, flag down, pred none, succ none, oldpred none",
        "identifier 500, wanting to leave, lock taken, flag down, pred 0, succ 5, oldpred none",
        "identifier 600, leaving, lock taken, flag down, pred 3, succ 4, oldpred none",
    ];
    for (hub, text) in texts.iter().enumerate() {
        let answer = format!("row {hub}: {text}");
        assert_eq!(ask(&mut inspect, &format!("row {hub}")), answer);
    }
    for hub in [6, 64, 255, u32::MAX] {
        let answer = format!("row {hub}: none");
        assert_eq!(ask(&mut inspect, &format!("row {hub}")), answer);
    }
}

/// Places past the roll keep what they held.
#[test]
fn rolls() {
    let mut inspect = holding(&two_at_rest());
    for (line, answer) in [
        ("roll 0 2", "roll from 0, length 2: 0 1"),
        ("roll 0 4", "roll from 0, length 2: 0 1 - -"),
        ("roll 1 3", "roll from 1, length 2: 1 0 -"),
        ("roll 0 1", "roll from 0, refused 17 (output short): -"),
        ("roll 0 0", "roll from 0, refused 17 (output short):"),
        ("roll 2 2", "roll from 2, refused 5 (not in ring): - -"),
        ("roll 3 1", "roll from 3, refused 4 (no hub): -"),
    ] {
        assert_eq!(ask(&mut inspect, line), answer);
    }
    let mut full = holding(&Run::settled(&(0..64).collect::<Vec<u32>>()).words);
    let all: String = (0..64).map(|hub| format!(" {hub}")).collect();
    let answer = format!("roll from 0, length 64:{all}");
    assert_eq!(ask(&mut full, "roll 0 64"), answer);
}

/// A founding frame names hub 0, whichever hub has the smallest identifier.
#[test]
fn hub_0_founds() {
    let lines = ["F0000000C800000064", "row 0", "row 1", "owner 100"];
    let texts = [
        "quiet",
        "row 0: identifier 200, inside, lock free, flag down, pred 0, succ 0, oldpred none",
        "row 1: identifier 100, outside, lock free, flag down, \
         pred none, succ none, oldpred none",
        "owner of 100: hub 0",
    ];
    for (count, text) in (1..).zip(texts) {
        assert_eq!(last(&lines[..count]), text);
    }
}

#[test]
fn owners() {
    let mut inspect = holding(&two_at_rest());
    for (number, hub) in [(100, 0), (101, 1), (150, 1), (200, 1), (201, 0)] {
        let answer = format!("owner of {number}: hub {hub}");
        assert_eq!(ask(&mut inspect, &format!("owner {number}")), answer);
    }
}

/// A message of each kind, oldest first; questions are the LOOKUPs.
#[test]
fn waiting_messages() {
    let question = Message {
        b: 1,
        hops: 65535,
        ..message(LOOKUP, 0, 1, u32::MAX)
    };
    let with_hub = [2, 4, 6, 11];
    let mut messages = vec![question];
    messages.extend((2..=14).map(|kind| match with_hub.contains(&kind) {
        true => message(kind, 1, 0, 1),
        false => message(kind, 0, 1, 0),
    }));
    messages.push(question);
    let rows = [inside(100, 1, 1), inside(200, 0, 0)];
    let mut inspect = holding(&record(2, &rows, &messages));
    let expected = "waiting: messages 15, questions 2\n\
                    LOOKUP from 0 to 1: number 4294967295, ticket 1, hops 65535\n\
                    JOIN from 1 to 0: hub 1\nJOINRETRY from 0 to 1\n\
                    JOINPOINT from 1 to 0: hub 1\nNEWSUCC from 0 to 1\n\
                    NEWSUCCACK from 1 to 0: hub 1\nJOINDONE from 0 to 1\n\
                    LEAVEREQ from 0 to 1\nLEAVERETRY from 0 to 1\nLEAVEGRANT from 0 to 1\n\
                    LEAVEPOINT from 1 to 0: hub 1\nUPDATESUCC from 0 to 1\n\
                    STOPFORWARD from 0 to 1\nLEAVEDONE from 0 to 1\n\
                    LOOKUP from 0 to 1: number 4294967295, ticket 1, hops 65535";
    assert_eq!(ask(&mut inspect, "waiting"), expected);
    let nothing = last(&["F000000064", "waiting"]);
    assert_eq!(nothing, "waiting: messages 0, questions 0");
}
