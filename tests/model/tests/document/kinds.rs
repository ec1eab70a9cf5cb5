//! The fourteen kinds one by one, on records made by hand: what each needs of
//! its receiver, and the record and answer after it.

use ring_model::answer::{ENTERED, GONE, JOINED, JOIN_TURNED_AWAY, LEAVE_TURNED_AWAY, LEFT};
use ring_model::kinds::*;
use ring_model::record::{Message, Row, INSIDE, JOINING, LEAVING, WANTING_TO_LEAVE};
use ring_model::{step, Answer};

use crate::common::{inside, message, outside, record, refused};

/// The seven forms that a row can have, all of node 1 (200).
fn forms() -> [Row; 7] {
    let joining = Row {
        state: JOINING,
        lock: true,
        ..outside(200)
    };
    let locked = Row {
        lock: true,
        ..inside(200, 0, 0)
    };
    let flagged = Row {
        flag: true,
        oldpred: 3,
        ..locked
    };
    let wanting = Row {
        state: WANTING_TO_LEAVE,
        ..locked
    };
    let leaving = Row {
        state: LEAVING,
        ..locked
    };
    [
        outside(200),
        joining,
        inside(200, 0, 0),
        locked,
        flagged,
        wanting,
        leaving,
    ]
}

const JOINING_FORM: usize = 1;
const FREE: usize = 2;
const LOCKED: usize = 3;
const FLAGGED: usize = 4;
const WANTING: usize = 5;
const LEAVING_FORM: usize = 6;

/// Node 0 (100) inside, node 1 in the given form, node 2 (150) joining,
/// node 3 (300) inside; one message from 0 to 1.
fn before(form: usize, sent: Message) -> Vec<u32> {
    let rows = [
        inside(100, 1, 1),
        forms()[form],
        joiner(),
        inside(300, 1, 0),
    ];
    record(1, &rows, &[sent])
}

fn joiner() -> Row {
    Row {
        state: JOINING,
        lock: true,
        ..outside(150)
    }
}

/// What node 1 and the messages become when the message from 0 is delivered.
fn delivered(form: usize, sent: Message) -> (Answer, [u32; 7], Vec<u32>) {
    let mut words = before(form, sent);
    let kept = words.clone();
    let answer = step(&mut words, 3, sent.from, sent.to).expect("deliver is accepted");
    // Only node 1's row and the messages may change.
    assert_eq!(words[3..11], kept[3..11]);
    assert_eq!(words[18..452], kept[18..452]);
    assert!(words[458..].iter().all(|&word| word == 0));
    let row = [11, 12, 13, 14, 15, 16, 17].map(|index| words[index]);
    (answer, row, words[452..458].to_vec())
}

/// Each kind, a field a that fits it, and the forms in which the receiver is
/// as required.
const REQUIRED: [(u32, u32, &[usize]); 14] = [
    (LOOKUP, 170, &[FREE, LOCKED, FLAGGED, WANTING, LEAVING_FORM]),
    (JOIN, 2, &[0, 1, 2, 3, 4, 5, 6]),
    (JOINRETRY, 0, &[JOINING_FORM]),
    (JOINPOINT, 0, &[JOINING_FORM]),
    (NEWSUCC, 0, &[FREE, LOCKED, FLAGGED, WANTING]),
    (NEWSUCCACK, 0, &[FLAGGED]),
    (JOINDONE, 0, &[LOCKED]),
    (LEAVEREQ, 0, &[FREE, LOCKED, FLAGGED, WANTING, LEAVING_FORM]),
    (LEAVERETRY, 0, &[WANTING]),
    (LEAVEGRANT, 0, &[WANTING]),
    (LEAVEPOINT, 0, &[LOCKED, FLAGGED]),
    (UPDATESUCC, 0, &[FREE, LOCKED, FLAGGED, WANTING]),
    (STOPFORWARD, 0, &[LEAVING_FORM]),
    (LEAVEDONE, 0, &[LOCKED]),
];

#[test]
fn what_the_receiver_must_be() {
    for (kind, a, accepted) in REQUIRED {
        for form in 0..7 {
            let words = before(form, message(kind, 0, 1, a));
            let outcome = step(&mut words.clone(), 3, 0, 1);
            if accepted.contains(&form) {
                assert!(outcome.is_ok(), "kind {kind} form {form}");
            } else {
                assert_eq!(refused(&words, 3, 0, 1), 10, "kind {kind} form {form}");
            }
        }
    }
}

/// 'Hub a in state 1' is all that JOIN asks, whatever the receiver is.
#[test]
fn join_needs_a_joining_node() {
    for form in 0..7 {
        assert_eq!(refused(&before(form, message(JOIN, 0, 1, 3)), 3, 0, 1), 10);
    }
}

fn lookup(from: u32, key: u32, hops: u32) -> Message {
    Message {
        hops,
        ..message(LOOKUP, from, 1, key)
    }
}

#[test]
fn lookup_found_or_sent_on() {
    for form in [FREE, LOCKED, WANTING] {
        assert_eq!(
            delivered(form, lookup(0, 170, 4)).0,
            Answer::found(1, 170, 0, 5)
        );
        let (answer, _, sent) = delivered(form, lookup(0, 201, 4));
        assert_eq!(answer, Answer::quiet());
        assert_eq!(sent, [LOOKUP, 1, 0, 201, 0, 5]);
    }
    let (answer, _, sent) = delivered(LEAVING_FORM, lookup(0, 170, 4));
    assert_eq!(
        (answer, sent),
        (Answer::quiet(), vec![LOOKUP, 1, 0, 170, 0, 5])
    );
}

/// Flagged with oldpred 3: only what comes from 3 goes to pred.
#[test]
fn lookup_at_a_flagged_node() {
    assert_eq!(
        delivered(FLAGGED, lookup(0, 170, 0)).0,
        Answer::found(1, 170, 0, 1)
    );
    let (answer, _, sent) = delivered(FLAGGED, lookup(3, 170, 0));
    assert_eq!(
        (answer, sent),
        (Answer::quiet(), vec![LOOKUP, 1, 0, 170, 0, 1])
    );
    let (answer, _, sent) = delivered(FLAGGED, lookup(3, 250, 0));
    assert_eq!(
        (answer, sent),
        (Answer::quiet(), vec![LOOKUP, 1, 0, 250, 0, 1])
    );
}

#[test]
fn hops_stay_at_65535() {
    for (hops, grown) in [(65_533, 65_534), (65_534, 65_535), (65_535, 65_535)] {
        assert_eq!(delivered(FREE, lookup(0, 170, hops)).0.hops, grown);
        assert_eq!(delivered(FREE, lookup(0, 50, hops)).2[5], grown);
    }
}

/// A message to itself uses no link, whether its question is found or sent on.
#[test]
fn hops_count_no_message_to_itself() {
    for hops in [0, 4, 65_534, 65_535] {
        let found = Answer::found(1, 170, 0, hops);
        assert_eq!(delivered(FREE, lookup(1, 170, hops)).0, found);
        let sent_on = [LOOKUP, 1, 0, 50, 0, hops];
        assert_eq!(delivered(FREE, lookup(1, 50, hops)).2, sent_on);
    }
}

#[test]
fn join_at_every_form() {
    let join = message(JOIN, 0, 1, 2);
    let turned_away = vec![JOINRETRY, 1, 2, 0, 0, 0];
    for form in [0, JOINING_FORM, LOCKED, FLAGGED, WANTING] {
        let (answer, row, sent) = delivered(form, join);
        assert_eq!(
            (answer, sent),
            (Answer::quiet(), turned_away.clone()),
            "form {form}"
        );
        assert_eq!(row, row_words(form));
    }
    let (answer, row, sent) = delivered(FREE, join);
    assert_eq!(answer, Answer::naming(ENTERED, 2));
    assert_eq!(row, [200, INSIDE, 1, 1, 2, 0, 0]);
    assert_eq!(sent, [JOINPOINT, 1, 2, 0, 0, 0]);
    let (answer, _, sent) = delivered(LEAVING_FORM, join);
    assert_eq!((answer, sent), (Answer::quiet(), vec![JOIN, 1, 0, 2, 0, 0]));
    // Over the old link a join goes to the newcomer as a lookup does.
    let (answer, _, sent) = delivered(FLAGGED, message(JOIN, 3, 1, 2));
    assert_eq!((answer, sent), (Answer::quiet(), vec![JOIN, 1, 0, 2, 0, 0]));
}

fn row_words(form: usize) -> [u32; 7] {
    let words = before(form, message(JOIN, 0, 1, 2));
    [11, 12, 13, 14, 15, 16, 17].map(|index| words[index])
}

/// The interval is open at pred: a node whose pred is the joiner does not own
/// the joiner's identifier and sends the join on.
#[test]
fn join_at_a_node_whose_pred_is_the_joiner() {
    let rows = [inside(100, 2, 2), joiner(), inside(200, 1, 0)];
    let mut words = record(0, &rows, &[message(JOIN, 1, 2, 1)]);
    assert_eq!(step(&mut words, 3, 1, 2), Ok(Answer::quiet()));
    assert_eq!(words[452..458], [JOIN, 2, 0, 1, 0, 0]);
}

/// A joiner may meet its own JOIN, sent on by another.
#[test]
fn join_that_meets_its_joiner() {
    let rows = [inside(100, 0, 0), joiner()];
    let mut words = record(0, &rows, &[message(JOIN, 0, 1, 1)]);
    assert_eq!(step(&mut words, 3, 0, 1), Ok(Answer::quiet()));
    assert_eq!(words[452..458], [JOINRETRY, 1, 1, 0, 0, 0]);
    assert_eq!(
        step(&mut words, 3, 1, 1),
        Ok(Answer::naming(JOIN_TURNED_AWAY, 1))
    );
    assert_eq!(words, record(0, &[inside(100, 0, 0), outside(150)], &[]));
}

#[test]
fn join_messages() {
    let (answer, row, sent) = delivered(JOINING_FORM, message(JOINRETRY, 0, 1, 0));
    assert_eq!(answer, Answer::naming(JOIN_TURNED_AWAY, 1));
    assert_eq!((row, sent), ([200, 0, 0, 0, 255, 255, 255], vec![0; 6]));
    let (answer, row, sent) = delivered(JOINING_FORM, message(JOINPOINT, 0, 1, 3));
    assert_eq!(answer, Answer::quiet());
    assert_eq!(
        (row, sent),
        ([200, 2, 1, 0, 3, 0, 255], vec![NEWSUCC, 1, 3, 0, 0, 0])
    );
    let (answer, row, sent) = delivered(WANTING, message(NEWSUCC, 3, 1, 0));
    assert_eq!(answer, Answer::quiet());
    assert_eq!(
        (row, sent),
        ([200, 3, 1, 0, 0, 3, 255], vec![NEWSUCCACK, 1, 0, 3, 0, 0])
    );
    let (answer, row, sent) = delivered(FLAGGED, message(NEWSUCCACK, 0, 1, 3));
    assert_eq!(answer, Answer::quiet());
    assert_eq!(
        (row, sent),
        ([200, 2, 0, 0, 0, 0, 255], vec![JOINDONE, 1, 3, 0, 0, 0])
    );
    let (answer, row, sent) = delivered(LOCKED, message(JOINDONE, 0, 1, 0));
    assert_eq!(answer, Answer::naming(JOINED, 1));
    assert_eq!((row, sent), ([200, 2, 0, 0, 0, 0, 255], vec![0; 6]));
}

/// LEAVEREQ is judged by the lock alone, whoever sends it.
#[test]
fn leave_is_granted_by_a_free_lock() {
    for from in [0, 3] {
        let request = message(LEAVEREQ, from, 1, 0);
        let (answer, row, sent) = delivered(FREE, request);
        assert_eq!(answer, Answer::quiet());
        assert_eq!(
            (row, sent),
            (
                [200, 2, 1, 0, 0, 0, 255],
                vec![LEAVEGRANT, 1, from, 0, 0, 0]
            )
        );
        for form in [LOCKED, FLAGGED, WANTING, LEAVING_FORM] {
            let (answer, row, sent) = delivered(form, request);
            assert_eq!((answer, row), (Answer::quiet(), row_words(form)));
            assert_eq!(sent, [LEAVERETRY, 1, from, 0, 0, 0]);
        }
    }
}

#[test]
fn leave_messages() {
    let (answer, row, sent) = delivered(WANTING, message(LEAVERETRY, 0, 1, 0));
    assert_eq!(answer, Answer::naming(LEAVE_TURNED_AWAY, 1));
    assert_eq!((row, sent), ([200, 2, 0, 0, 0, 0, 255], vec![0; 6]));
    let (answer, row, sent) = delivered(WANTING, message(LEAVEGRANT, 3, 1, 0));
    assert_eq!(answer, Answer::quiet());
    assert_eq!(
        (row, sent),
        ([200, 4, 1, 0, 0, 0, 255], vec![LEAVEPOINT, 1, 3, 0, 0, 0])
    );
    let (answer, row, sent) = delivered(LOCKED, message(LEAVEPOINT, 0, 1, 3));
    assert_eq!(answer, Answer::naming(GONE, 0));
    assert_eq!(
        (row, sent),
        ([200, 2, 1, 0, 3, 0, 255], vec![UPDATESUCC, 1, 3, 0, 0, 0])
    );
    let (answer, row, sent) = delivered(FREE, message(UPDATESUCC, 3, 1, 0));
    assert_eq!(answer, Answer::quiet());
    assert_eq!(
        (row, sent),
        ([200, 2, 0, 0, 0, 3, 255], vec![STOPFORWARD, 1, 0, 0, 0, 0])
    );
    let (answer, row, sent) = delivered(LEAVING_FORM, message(STOPFORWARD, 0, 1, 0));
    assert_eq!(answer, Answer::naming(LEFT, 1));
    assert_eq!(
        (row, sent),
        (
            [200, 0, 0, 0, 255, 255, 255],
            vec![LEAVEDONE, 1, 0, 0, 0, 0]
        )
    );
    let (answer, row, sent) = delivered(LOCKED, message(LEAVEDONE, 0, 1, 0));
    assert_eq!(answer, Answer::quiet());
    assert_eq!((row, sent), ([200, 2, 0, 0, 0, 0, 255], vec![0; 6]));
}
