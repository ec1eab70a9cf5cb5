//! Which refusal comes first where several would do, and that a refused call
//! changes nothing.

use ring_model::cards::step_cards_tallied;
use ring_model::kinds::{JOINDONE, LEAVEPOINT, LOOKUP};
use ring_model::record::Message;
use ring_model::tally::REFUSED;
use ring_model::{step, Tally, RECORD_WORDS};

use crate::common::{inside, message, outside, record};
use crate::{many, slice, three, Both, Four, MOST, SLICE, THREE};

const MEMBERS: [u32; 3] = [0, 1, 2];
const CARDS: [Four; 2] = [[150, 5, 70, 1], [250, 0, 0, 2]];

fn sound() -> Vec<u32> {
    slice(&MEMBERS, &CARDS)
}

/// A record or slice that is too short, one with its first word wrong, and a
/// sound one.
fn each(words: &[u32]) -> [Vec<u32>; 3] {
    let mut damaged = words.to_vec();
    damaged[0] = 999;
    [words[..words.len() - 1].to_vec(), damaged, words.to_vec()]
}

/// Record's 1, cards' 1, record's 2, cards' 2, and only then the call's own:
/// here 3 of the step and 22 of the offer.
#[test]
fn both_slices_before_the_call() {
    let numbers = [[1, 1, 1], [1, 2, 2], [1, 2, 0]];
    for (words, row) in each(&three()).iter().zip(numbers) {
        for (cards, number) in each(&sound()).iter().zip(row) {
            let mut both = Both::new(words, cards);
            let or = |own: u32| if number == 0 { own } else { number };
            assert_eq!(both.step(4, 0, 0), Err(or(3)));
            assert_eq!(both.step(0, 3, 0), Err(or(4)));
            assert_eq!(both.offer(150, 4, 70), Err(or(22)));
            assert_eq!(both.offer(150, 5, 71), Err(or(23)));
        }
    }
}

/// 24 behind both, too.
#[test]
fn full_slices() {
    let numbers = [[1, 1, 1], [1, 2, 2], [1, 2, 24]];
    let full = slice(&MEMBERS, &many(&THREE, &MEMBERS, MOST));
    for (words, row) in each(&three()).iter().zip(numbers) {
        for (cards, number) in each(&full).iter().zip(row) {
            assert_eq!(Both::new(words, cards).offer(1, 1, 1), Err(number));
        }
    }
}

/// Too short by any number of words, and no slice at all.
#[test]
fn short_slices() {
    for length in [0, 1, 65, SLICE - 4, SLICE - 1] {
        let both = Both::new(&three(), &sound()[..length]);
        assert_eq!(both.both_refused(), Some(1));
    }
    for length in [0, 1, 4, RECORD_WORDS - 6, RECORD_WORDS - 1] {
        let both = Both::new(&three()[..length], &sound());
        assert_eq!(both.both_refused(), Some(1));
    }
}

/// A message that its receiver does not expect.
const UNEXPECTED: Message = Message {
    kind: JOINDONE,
    from: 0,
    to: 1,
    a: 0,
    b: 0,
    hops: 0,
};

/// Each of the step's own refusals: the record, the command, the number.
fn refusals() -> Vec<(Vec<u32>, [u32; 3], u32)> {
    let two = [inside(100, 1, 1), inside(200, 0, 0), outside(300)];
    let at_rest = record(0, &two, &[]);
    let mut locked = two;
    locked[1].lock = true;
    let alone = [inside(100, 0, 0), outside(200), outside(300)];
    let asked = message(LOOKUP, 0, 1, 150);
    vec![
        (at_rest.clone(), [4, 0, 0], 3),
        (at_rest.clone(), [u32::MAX, 9, 9], 3),
        (at_rest.clone(), [0, 3, 0], 4),
        (at_rest.clone(), [3, 0, 3], 4),
        (at_rest.clone(), [0, 2, 0], 5),
        (at_rest.clone(), [1, 2, 2], 5),
        (at_rest.clone(), [1, 0, 2], 6),
        (record(0, &locked, &[]), [2, 1, 0], 7),
        (record(0, &alone, &[]), [2, 0, 0], 8),
        (at_rest.clone(), [3, 0, 1], 9),
        (record(0, &two, &[UNEXPECTED]), [3, 0, 1], 10),
        (record(1, &two, &[asked; 256]), [0, 0, 150], 11),
        (record(1, &two, &[asked; 256]), [1, 2, 0], 11),
        (record(1, &two, &[asked; 256]), [2, 0, 0], 11),
        (record(u32::MAX, &two, &[]), [0, 0, 150], 12),
    ]
}

/// The step's own refusals are those without cards; a damaged slice comes
/// before each of them.
#[test]
fn the_steps_own_questions() {
    for (words, [operation, x, y], number) in refusals() {
        let mut copy = words.clone();
        assert_eq!(step(&mut copy, operation, x, y), Err(number));
        for (cards, should) in each(&sound()).iter().zip([1, 2, number]) {
            let outcome = Both::new(&words, cards).step(operation, x, y);
            assert_eq!(outcome, Err(should), "{operation} {x} {y}");
        }
    }
}

/// A LEAVEPOINT whose sender is the only member: the last question comes after
/// 4, 9 and 10 of the same command.
#[test]
fn the_last_question_is_last() {
    let rows = |lock| {
        let mut rows = [inside(100, 1, 1), inside(200, 0, 0)];
        rows[0].lock = lock;
        rows
    };
    let gone = message(LEAVEPOINT, 1, 0, 0);
    let only = slice(&[1], &[[150, 1, 1, 1]]);
    let both = |lock, cards| Both::new(&record(0, &rows(lock), &[gone]), cards);
    assert_eq!(both(true, &only).step(3, 1, 0), Err(2));
    assert_eq!(both(false, &only).step(3, 1, 0), Err(10));
    assert_eq!(both(true, &only).step(3, 0, 1), Err(9));
    assert_eq!(both(true, &only).step(3, 2, 0), Err(4));
    assert_eq!(both(true, &only).step(4, 1, 0), Err(3));
    let damaged = slice(&[1], &[[150, 1, 1, 0]]);
    assert_eq!(both(true, &damaged).step(3, 1, 0), Err(2));
    assert_eq!(both(false, &damaged).step(3, 1, 0), Err(2));
}

/// The tally counts a step that is refused because of its cards, by the last
/// question too; an offer has no tally.
#[test]
fn refused_steps_are_counted() {
    let mut tally = Tally::default();
    for (cards, should) in each(&sound()).iter_mut().zip([1, 2, 0]) {
        let outcome = step_cards_tallied(&mut three(), cards, 0, 0, 50, &mut tally);
        assert_eq!(outcome.err().unwrap_or(0), should);
    }
    assert_eq!(tally.counts, [0, 1, 0, 0, 0, 0, 0, 0, 2]);
    let mut rows = [inside(100, 1, 1), inside(200, 0, 0)];
    rows[0].lock = true;
    let mut words = record(0, &rows, &[message(LEAVEPOINT, 1, 0, 0)]);
    let mut only = slice(&[1], &[]);
    let outcome = step_cards_tallied(&mut words, &mut only, 3, 1, 0, &mut tally);
    assert_eq!((outcome, tally.counts[REFUSED]), (Err(2), 3));
}
