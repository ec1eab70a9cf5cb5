//! Document 01's probes, in its order.

use ring_model::clockwise::in_interval;
use ring_model::kinds::{LEAVEREQ, LOOKUP};
use ring_model::record::Message;
use ring_model::{fresh, step, Answer, RECORD_WORDS};

use crate::common::{inside, message, record, refused, Run};

#[test]
fn interval_without_wrap() {
    assert!(!in_interval(100, 100, 200));
    assert!(in_interval(101, 100, 200));
    assert!(in_interval(200, 100, 200));
    assert!(!in_interval(201, 100, 200));
}

#[test]
fn interval_with_wrap() {
    assert!(in_interval(4_294_967_295, 200, 100));
    assert!(in_interval(0, 200, 100));
    assert!(in_interval(100, 200, 100));
    assert!(!in_interval(101, 200, 100));
}

#[test]
fn interval_of_one_point_is_the_circle() {
    assert!(in_interval(7, 7, 7));
}

#[test]
fn last_node_leaves() {
    assert_eq!(Run::found(&[100]).leave(0), Err(8));
    assert_eq!(Run::found(&[100, 200]).leave(0), Err(8));
}

#[test]
fn empty_link() {
    assert_eq!(Run::found(&[100, 200]).deliver(0, 1), Err(9));
}

#[test]
fn ask_at_an_outside_node() {
    assert_eq!(Run::found(&[100, 200]).ask(1, 150), Err(5));
}

#[test]
fn outside_node_joins_through_itself() {
    assert_eq!(Run::found(&[100, 200]).join(1, 1), Err(5));
}

#[test]
fn one_word_too_few() {
    let mut words = vec![0; RECORD_WORDS - 1];
    assert_eq!(fresh(&mut words, &[100]), Err(1));
    assert_eq!(step(&mut words, 0, 0, 0), Err(1));
    assert_eq!(words, vec![0; RECORD_WORDS - 1]);
}

#[test]
fn identifier_counts() {
    let identifiers: Vec<u32> = (0..65).collect();
    let mut words = vec![9; RECORD_WORDS];
    assert_eq!(fresh(&mut words, &[]), Err(13));
    assert_eq!(fresh(&mut words, &identifiers), Err(13));
    assert_eq!(words, vec![9; RECORD_WORDS]);
    assert_eq!(fresh(&mut words, &identifiers[..64]), Ok(()));
}

/// Two nodes at rest but for 256 messages: one LEAVEREQ and 255 lookups.
fn full_record() -> Vec<u32> {
    let rows = [inside(100, 1, 1), inside(200, 0, 0)];
    let mut messages = vec![message(LEAVEREQ, 1, 0, 0)];
    messages.extend((0..255).map(|ticket| Message {
        b: ticket,
        ..message(LOOKUP, 0, 1, 150)
    }));
    record(255, &rows, &messages)
}

#[test]
fn full_record_refuses_a_leave() {
    assert_eq!(refused(&full_record(), 2, 0, 0), 11);
}

#[test]
fn full_record_delivers() {
    let mut words = full_record();
    // Sends a message of its own, into the place that it made.
    assert_eq!(step(&mut words, 3, 1, 0), Ok(Answer::quiet()));
    assert_eq!(words[2], 256);
    assert_eq!(step(&mut words, 3, 0, 1), Ok(Answer::found(1, 150, 0, 1)));
    assert_eq!(words[2], 255);
}

#[test]
fn full_record_answers_its_own_key() {
    let mut words = full_record();
    assert_eq!(refused(&words, 0, 0, 150), 11);
    assert_eq!(
        step(&mut words, 0, 1, 150),
        Ok(Answer::found(1, 150, 255, 0))
    );
    assert_eq!((words[2], words[3]), (256, 256));
}

/// 'A delivered one is taken out and later ones move up': words of the last
/// place fall back to 0.
#[test]
fn places_move_up() {
    let mut words = full_record();
    let second = words[458..464].to_vec();
    let later = words[464..RECORD_WORDS].to_vec();
    step(&mut words, 3, 0, 1).expect("deliver is accepted");
    assert_eq!(words[452..458], [8, 1, 0, 0, 0, 0]);
    assert_ne!(words[458..464], second);
    assert_eq!(words[458..RECORD_WORDS - 6], later);
    assert_eq!(words[RECORD_WORDS - 6..], [0; 6]);
}
