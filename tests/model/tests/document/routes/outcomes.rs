//! What comes of the questions of a route: found, sent on, refused by 4 or 5.

use ring_model::kinds::LOOKUP;
use ring_model::record::{Message, Row, State, JOINING, LEAVING, WANTING_TO_LEAVE};

use super::{accepted, found, no, two_at_rest, Six, MOST, QUIET};
use crate::common::{inside, outside, record, Run};

/// A question that waits, as an ask sends it on.
fn lookup(from: u32, to: u32, number: u32, ticket: u32) -> Message {
    Message {
        kind: LOOKUP,
        from,
        to,
        a: number,
        b: ticket,
        hops: 0,
    }
}

/// Found at once and sent on, mixed: the tickets run through the list, and the
/// questions wait in its order.
#[test]
fn found_and_sent_on() {
    let words = Run::settled(&[100, 200, 300]).words;
    let (outcomes, after) = accepted(&words, 1, &[150, 50, 200, 201, 100, 101]);
    let should = [
        found(1, 150, 0),
        QUIET,
        found(1, 200, 2),
        QUIET,
        QUIET,
        found(1, 101, 5),
    ];
    assert_eq!(outcomes, should);
    let before = State::read(&words).expect("the record reads");
    let state = State::read(&after).expect("the record reads");
    let waiting = [(50, 1), (201, 3), (100, 4)];
    let waiting = waiting.map(|(number, ticket)| lookup(1, 2, number, ticket));
    assert_eq!(state.messages, waiting);
    assert_eq!((state.asked, state.rows), (6, before.rows));
}

/// What waits already stays in front.
#[test]
fn behind_what_waits() {
    let mut run = Run::settled(&[100, 200, 300]);
    run.ask(0, 250).expect("ask is accepted");
    run.leave(1).expect("leave is accepted");
    let before = run.state();
    let (outcomes, after) = accepted(&run.words, 2, &[300, 7, 301]);
    assert_eq!(outcomes, [found(2, 300, 1), QUIET, QUIET]);
    let state = State::read(&after).expect("the record reads");
    assert_eq!(state.messages[..2], before.messages);
    let waiting = [lookup(2, 0, 7, 2), lookup(2, 0, 301, 3)];
    assert_eq!(state.messages[2..], waiting);
}

/// A number that stands twice is asked twice.
#[test]
fn a_number_twice() {
    let (outcomes, after) = accepted(&two_at_rest(), 1, &[150, 150, 50, 50, 150]);
    let [first, second, last] = [0, 1, 4].map(|ticket| found(1, 150, ticket));
    assert_eq!(outcomes, [first, second, QUIET, QUIET, last]);
    assert_eq!((after[2], after[3]), (2, 5));
}

/// 4 in each, and the record stays.
#[test]
fn a_hub_that_is_none() {
    for hub in [3, 4, 63, 64, 255, 256, 1 << 31, u32::MAX] {
        for count in [1, 2, MOST] {
            let (outcomes, after) = accepted(&two_at_rest(), hub, &vec![150; count]);
            assert_eq!(outcomes, vec![no(4); count]);
            assert_eq!(after, two_at_rest());
        }
    }
}

/// 5 in each, and the record stays: outside, and joining.
#[test]
fn a_hub_that_is_not_in_the_ring() {
    let joining = Row {
        state: JOINING,
        lock: true,
        ..outside(400)
    };
    let rows = [inside(100, 1, 1), inside(200, 0, 0), outside(300), joining];
    let words = record(0, &rows, &[]);
    for hub in [2, 3] {
        for count in [1, 2, MOST] {
            let numbers: Vec<u32> = (0..count as u32).map(|i| 100 * i).collect();
            let (outcomes, after) = accepted(&words, hub, &numbers);
            assert_eq!(outcomes, vec![no(5); count]);
            assert_eq!(after, words);
        }
    }
}

/// Hubs in states 2 and 3 answer what they own; one in state 4 sends on all.
#[test]
fn by_the_hubs_state() {
    for state in [2, WANTING_TO_LEAVE, LEAVING] {
        let asked = Row {
            state,
            lock: true,
            ..inside(200, 0, 0)
        };
        let words = record(9, &[inside(100, 1, 1), asked], &[]);
        let (outcomes, after) = accepted(&words, 1, &[150, 50, 200]);
        let should: [Six; 3] = match state {
            LEAVING => [QUIET; 3],
            _ => [found(1, 150, 9), QUIET, found(1, 200, 11)],
        };
        assert_eq!(outcomes, should);
        assert_eq!(
            (after[2], after[3]),
            (if state == LEAVING { 3 } else { 1 }, 12)
        );
    }
}

/// An ask has no sender: the forward flag does not matter to a route.
#[test]
fn at_a_hub_with_its_flag_set() {
    let asked = Row {
        lock: true,
        flag: true,
        oldpred: 0,
        ..inside(200, 2, 0)
    };
    let words = record(0, &[inside(100, 1, 1), asked, outside(150)], &[]);
    let (outcomes, _) = accepted(&words, 1, &[151, 150, 200, 120]);
    let should = [found(1, 151, 0), QUIET, found(1, 200, 2), QUIET];
    assert_eq!(outcomes, should);
}

/// The eight lines of document 01's listing, their two asks made as routes.
#[test]
fn in_the_listing() {
    let mut run = Run::found(&[100, 200]);
    let (outcomes, words) = accepted(&run.words, 0, &[150]);
    assert_eq!(outcomes, [found(0, 150, 0)]);
    run.ask(0, 150).expect("ask is accepted");
    assert_eq!(run.words, words);
    run.join(1, 0).expect("join is accepted");
    run.deliver(1, 0).expect("JOIN is delivered");
    let (outcomes, words) = accepted(&run.words, 0, &[150]);
    assert_eq!(outcomes, [QUIET]);
    run.ask(0, 150).expect("ask is accepted");
    assert_eq!(run.words, words);
}
