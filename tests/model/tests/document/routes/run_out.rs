//! Room and tickets that run out in the middle of a list.

use ring_model::kinds::LOOKUP;

use super::{accepted, found, no, Six, MOST, QUIET};
use crate::common::{inside, message, record};

/// A number that hub 0 owns, and one that it sends on.
const OWN: u32 = 50;
const OTHERS: u32 = 150;

/// Hubs 0 (100) and 1 (200) with so many messages, and so many tickets taken.
fn filled(asked: u32, messages: usize) -> Vec<u32> {
    let rows = [inside(100, 1, 1), inside(200, 0, 0)];
    record(asked, &rows, &vec![message(LOOKUP, 0, 1, 7); messages])
}

/// From the 256th message on what must be sent on is 11; what the hub owns is
/// still answered, among those that are refused. Only who is accepted takes a
/// ticket.
#[test]
fn the_record_fills() {
    let numbers = [
        OTHERS, OWN, OTHERS, OTHERS, OWN, OTHERS, OTHERS, OWN, OTHERS,
    ];
    let (outcomes, after) = accepted(&filled(1, 254), 0, &numbers);
    let should = [
        QUIET,
        found(0, OWN, 2),
        QUIET,
        no(11),
        found(0, OWN, 4),
        no(11),
        no(11),
        found(0, OWN, 5),
        no(11),
    ];
    assert_eq!(outcomes, should);
    assert_eq!((after[2], after[3]), (256, 6));
    // The last two messages are the route's: number and ticket of each.
    let last = &after[452 + 6 * 254..452 + 6 * 256];
    assert_eq!(last, [1, 0, 1, OTHERS, 1, 0, 1, 0, 1, OTHERS, 3, 0]);
}

/// However much room there is, the first so many go in.
#[test]
fn any_room() {
    for room in 0..=MOST {
        let (outcomes, after) = accepted(&filled(1, 256 - room), 0, &[OTHERS; MOST]);
        let mut should = vec![QUIET; room];
        should.resize(MOST, no(11));
        assert_eq!(outcomes, should);
        assert_eq!((after[2], after[3]), (256, 1 + room as u32));
    }
}

/// A record that is full from the start.
#[test]
fn a_full_record() {
    let words = filled(1, 256);
    let (outcomes, after) = accepted(&words, 0, &[OTHERS; MOST]);
    assert_eq!(outcomes, [no(11); MOST]);
    assert_eq!(after, words);
    let (outcomes, after) = accepted(&words, 0, &[OWN; MOST]);
    let should: Vec<Six> = (1..=64).map(|ticket| found(0, OWN, ticket)).collect();
    assert_eq!(outcomes, should);
    assert_eq!((after[2], after[3]), (256, 65));
}

/// The last ticket is 4294967294. From there on all is 12, whoever owns it.
#[test]
fn the_tickets_run_out() {
    let numbers = [OWN, OTHERS, OWN, OTHERS, OWN];
    let (outcomes, after) = accepted(&filled(u32::MAX - 2, 0), 0, &numbers);
    let should = [found(0, OWN, u32::MAX - 2), QUIET, no(12), no(12), no(12)];
    assert_eq!(outcomes, should);
    assert_eq!((after[2], after[3]), (1, u32::MAX));
}

/// However many tickets there are, the first so many get one.
#[test]
fn any_number_of_tickets() {
    for left in 0..=MOST as u32 {
        let first = u32::MAX - left;
        let (outcomes, after) = accepted(&filled(first, 0), 0, &[OWN; MOST]);
        let taken = (first..u32::MAX).map(|ticket| found(0, OWN, ticket));
        let mut should: Vec<Six> = taken.collect();
        should.resize(MOST, no(12));
        assert_eq!(outcomes, should);
        assert_eq!(after[3], u32::MAX);
    }
}

/// 12 is asked before 11: where both run out, each question gets the first of
/// them that answers no at its turn.
#[test]
fn both_run_out() {
    let numbers = [OTHERS, OTHERS, OWN, OTHERS, OWN, OTHERS];
    let (outcomes, after) = accepted(&filled(u32::MAX - 3, 255), 0, &numbers);
    let should = [
        QUIET,
        no(11),
        found(0, OWN, u32::MAX - 2),
        no(11),
        found(0, OWN, u32::MAX - 1),
        no(12),
    ];
    assert_eq!(outcomes, should);
    assert_eq!((after[2], after[3]), (256, u32::MAX));
}
