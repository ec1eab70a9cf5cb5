//! The places: list order, exactly enough, one word short, and longer.

use super::{accepted, found, no, two_at_rest, Lent, Six, BEFORE, MOST, PLACE, QUIET};
use crate::common::Run;

/// One outcome for each number, in list order, in a list of each length.
#[test]
fn one_outcome_for_each() {
    let words = Run::found(&[100]).words;
    for count in 0..=MOST {
        let numbers: Vec<u32> = (0..count as u32).map(|i| 1000 - 7 * i).collect();
        let (outcomes, after) = accepted(&words, 0, &numbers);
        let each = |(&number, ticket)| found(0, number, ticket);
        let should: Vec<Six> = numbers.iter().zip(0..).map(each).collect();
        assert_eq!(outcomes, should);
        assert_eq!(after[3], count as u32);
    }
}

/// The words of three outcomes, one by one: the refusal number, then kind,
/// hub, number, ticket and hops.
#[test]
fn six_words() {
    let mut lent = Lent::new(&two_at_rest(), 3 * PLACE);
    assert_eq!(lent.route(1, &[150, 50, 200]), Ok(()));
    assert_eq!(lent.outcomes[..6], [0, 1, 1, 150, 0, 0]);
    assert_eq!(lent.outcomes[6..12], [0, 0, 0, 0, 0, 0]);
    assert_eq!(lent.outcomes[12..], [0, 1, 1, 200, 2, 0]);
    assert_eq!(lent.route(2, &[150]), Ok(()));
    assert_eq!(lent.outcomes[..6], [5, 0, 0, 0, 0, 0]);
    assert_eq!(lent.outcomes[6..12], [0, 0, 0, 0, 0, 0]);
    assert_eq!(lent.outcomes[12..], [0, 1, 1, 200, 2, 0]);
}

/// Words behind the places written keep their content: up to five that make no
/// place, and whole places. `outcomes` looks at them.
#[test]
fn longer_output() {
    let numbers = [150, 50, 101];
    let should = [found(1, 150, 0), QUIET, found(1, 101, 2)];
    for over in (0..=13).chain([6 * MOST, 1000]) {
        let mut lent = Lent::new(&two_at_rest(), 3 * PLACE + over);
        assert_eq!(lent.route(1, &numbers), Ok(()));
        assert_eq!(lent.outcomes(3), should);
        assert_eq!(lent.outcomes.len(), 3 * PLACE + over);
    }
}

/// 'Words past the last whole place do not count': three places and up to five
/// words are no four places.
#[test]
fn words_that_make_no_place() {
    for over in 0..PLACE {
        let mut lent = Lent::new(&two_at_rest(), 3 * PLACE + over);
        assert_eq!(lent.route(1, &[150; 4]), Err(26));
        assert_eq!(lent.outcomes, vec![BEFORE; 3 * PLACE + over]);
        assert_eq!(lent.route(1, &[150; 3]), Ok(()));
    }
}

/// Whatever a place held before, all six words of it are written: 0 too.
#[test]
fn places_are_written_whole() {
    for hub in 0..4 {
        let mut lent = Lent::new(&two_at_rest(), PLACE);
        let mut other = lent.clone();
        other.outcomes.fill(0);
        assert_eq!(lent.route(hub, &[50]), Ok(()));
        assert_eq!(other.route(hub, &[50]), Ok(()));
        let should = [found(0, 50, 0), QUIET, no(5), no(4)][hub as usize];
        assert_eq!(lent.outcomes, should);
        assert_eq!(lent, other);
    }
}

/// Record words behind the first 1,988 are neither read nor written.
#[test]
fn longer_record() {
    for over in 1..=7 {
        let mut longer = two_at_rest();
        longer.extend(vec![BEFORE; over]);
        let (outcomes, after) = accepted(&longer, 0, &[150, 50]);
        let (should, record) = accepted(&two_at_rest(), 0, &[150, 50]);
        assert_eq!(outcomes, should);
        assert_eq!(after[..record.len()], record);
        assert_eq!(after[record.len()..], vec![BEFORE; over]);
    }
}
