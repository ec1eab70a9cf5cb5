//! The tally: each question of an accepted call counts, refused ones too.

use ring_model::kinds::LOOKUP;
use ring_model::Tally;

use super::{two_at_rest, Lent, MOST, PLACE};
use crate::common::{inside, message, record};

/// The counts that a route adds to a tally.
fn added(words: &[u32], hub: u32, numbers: &[u32]) -> [u64; 9] {
    let mut lent = Lent::new(words, PLACE * numbers.len());
    let before = lent.tally.counts;
    lent.route(hub, numbers).expect("the route is accepted");
    let mut place = 0..9;
    [(); 9].map(|()| {
        let i = place.next().expect("nine counts");
        lent.tally.counts[i] - before[i]
    })
}

/// Quiet and found by their kinds, refused ones in the last count.
#[test]
fn every_question_counts() {
    let words = two_at_rest();
    let numbers = [150, 50, 200, 120, 7];
    assert_eq!(added(&words, 1, &numbers), [2, 3, 0, 0, 0, 0, 0, 0, 0]);
    assert_eq!(added(&words, 0, &numbers), [3, 2, 0, 0, 0, 0, 0, 0, 0]);
    assert_eq!(added(&words, 2, &numbers), [0, 0, 0, 0, 0, 0, 0, 0, 5]);
    assert_eq!(added(&words, 3, &numbers), [0, 0, 0, 0, 0, 0, 0, 0, 5]);
    assert_eq!(added(&words, 3, &[7; MOST])[8], 64);
    assert_eq!(added(&words, 0, &[]), [0; 9]);
}

/// Refused ones in the middle, with accepted ones behind them.
#[test]
fn refused_in_the_middle() {
    let rows = [inside(100, 1, 1), inside(200, 0, 0)];
    let words = record(1, &rows, &[message(LOOKUP, 0, 1, 7); 255]);
    let numbers = [150, 150, 50, 150, 50, 50];
    assert_eq!(added(&words, 0, &numbers), [1, 3, 0, 0, 0, 0, 0, 0, 2]);
    let words = record(u32::MAX - 1, &rows, &[]);
    assert_eq!(added(&words, 0, &numbers), [1, 0, 0, 0, 0, 0, 0, 0, 5]);
}

/// A refused call has asked nothing, so it counts nothing.
#[test]
fn a_refused_call_counts_nothing() {
    let sound = two_at_rest();
    let mut damaged = sound.clone();
    damaged[0] = 0;
    let short = sound[..1987].to_vec();
    for (words, count, room, number) in [
        (&short, 1, 6, 1),
        (&damaged, 1, 6, 2),
        (&sound, 65, 390, 25),
        (&sound, 2, 11, 26),
    ] {
        let mut lent = Lent::new(words, room);
        let before = lent.tally;
        assert_eq!(lent.route(0, &vec![50; count]), Err(number));
        assert_eq!(lent.tally, before);
    }
}

/// A count at its limit stays, one below it gets there and no further.
#[test]
fn full_counts_stay() {
    let mut lent = Lent::new(&two_at_rest(), 3 * PLACE);
    lent.tally = Tally {
        counts: [u64::MAX; 9],
    };
    for hub in 0..4 {
        assert_eq!(lent.route(hub, &[50, 150, 50]), Ok(()));
        assert_eq!(lent.tally.counts, [u64::MAX; 9]);
    }
    lent.tally = Tally {
        counts: [u64::MAX - 1; 9],
    };
    assert_eq!(lent.route(0, &[50, 150, 50]), Ok(()));
    assert_eq!(lent.route(3, &[50, 150, 50]), Ok(()));
    let mut should = [u64::MAX - 1; 9];
    for raised in [0, 1, 8] {
        should[raised] = u64::MAX;
    }
    assert_eq!(lent.tally.counts, should);
}
