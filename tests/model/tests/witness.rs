//! The witness must see each claim of demand 3 broken, or its silence in the
//! random runs would mean nothing.

mod common;

use common::{inside, message, outside, record, Run};
use ring_model::answer::{ENTERED, GONE};
use ring_model::kinds::{JOINPOINT, LOOKUP};
use ring_model::ledger::{holders, Lookups, Membership, Violation};
use ring_model::record::State;
use ring_model::{Answer, Command, Witness};

const ASK: Command = Command {
    operation: 0,
    x: 0,
    y: 0,
};
const DELIVER: Command = Command {
    operation: 3,
    x: 0,
    y: 0,
};

#[test]
fn membership_follows_entered_and_gone_alone() {
    let mut membership = Membership::new(&[100, 200, 300], 0);
    assert_eq!(membership.owner(150), Some(0));
    membership.feed(&Answer::naming(ENTERED, 1));
    assert_eq!(
        (membership.owner(150), membership.owner(201)),
        (Some(1), Some(0))
    );
    for kind in [0, 4, 5, 6, 7] {
        membership.feed(&Answer::naming(kind, 2));
    }
    membership.feed(&Answer::found(2, 250, 0, 0));
    assert_eq!(membership.clockwise_from(1), [1, 0]);
    membership.feed(&Answer::naming(GONE, 0));
    assert_eq!(
        (membership.owner(50), membership.owner(201)),
        (Some(1), Some(1))
    );
    membership.feed(&Answer::naming(GONE, 1));
    assert_eq!(membership.owner(50), None);
}

/// It starts with the founder alone, whichever node that is.
#[test]
fn membership_starts_with_the_founder() {
    for founder in 0..3 {
        let mut membership = Membership::new(&[300, 100, 200], founder);
        assert_eq!(membership.clockwise_from(founder), [founder]);
        for key in [0, 100, 150, 300, u32::MAX] {
            assert_eq!(membership.owner(key), Some(founder));
        }
        membership.feed(&Answer::naming(GONE, founder));
        assert_eq!(membership.owner(100), None);
    }
}

#[test]
fn holders_are_in_state_2_or_3() {
    for (state, expected) in [(2, vec![0]), (3, vec![0]), (4, vec![])] {
        let mut row = inside(100, 1, 1);
        row.state = state;
        row.lock = true;
        let words = record(0, &[row, inside(200, 0, 0)], &[]);
        let state = State::read(&words).expect("the record reads");
        assert_eq!(holders(&state, 50), expected);
        assert_eq!(holders(&state, 150), [1]);
    }
}

#[test]
fn sees_two_holders() {
    let words = record(0, &[inside(100, 0, 0), inside(200, 0, 0)], &[]);
    let seen = Witness::new(&[100, 200], 0).judge(&words);
    assert!(
        matches!(seen, Err(Violation::SeveralHolders(_, _))),
        "{seen:?}"
    );
}

#[test]
fn sees_a_holder_that_is_not_the_owner() {
    let words = record(0, &[inside(100, 1, 1), inside(200, 0, 0)], &[]);
    let seen = Witness::new(&[100, 200], 0).judge(&words);
    assert!(
        matches!(seen, Err(Violation::HolderIsNotOwner(_, 1, Some(0)))),
        "{seen:?}"
    );
}

/// A membership that starts with another node than the founder is seen before
/// the first call, and in the first answer.
#[test]
fn sees_another_founder() {
    let words = Run::found_by(&[100, 200], 1).words;
    let mut witness = Witness::new(&[100, 200], 0);
    let seen = witness.judge(&words);
    assert!(
        matches!(seen, Err(Violation::HolderIsNotOwner(_, 1, Some(0)))),
        "{seen:?}"
    );
    let answer = Answer::found(1, 150, 0, 0);
    let seen = witness.take_in(ASK, &Ok(answer));
    assert_eq!(seen, Err(Violation::FoundNamesAnother(answer, Some(0))));
    let mut witness = Witness::new(&[100, 200], 1);
    assert_eq!(witness.observe(ASK, &Ok(answer), &words), Ok(()));
}

#[test]
fn sees_a_found_answer_of_another() {
    let mut witness = Witness::new(&[100, 200], 0);
    let answer = Answer::found(1, 150, 0, 0);
    let seen = witness.take_in(ASK, &Ok(answer));
    assert_eq!(seen, Err(Violation::FoundNamesAnother(answer, Some(0))));
}

/// The membership is asked as the calls before left it.
#[test]
fn found_is_judged_by_the_membership_before() {
    let mut witness = Witness::new(&[100, 200], 0);
    assert_eq!(
        witness.take_in(ASK, &Ok(Answer::found(0, 150, 0, 0))),
        Ok(())
    );
    assert_eq!(
        witness.take_in(DELIVER, &Ok(Answer::naming(ENTERED, 1))),
        Ok(())
    );
    assert_eq!(
        witness.take_in(ASK, &Ok(Answer::found(1, 150, 1, 0))),
        Ok(())
    );
    assert!(witness
        .take_in(ASK, &Ok(Answer::found(0, 150, 2, 0)))
        .is_err());
}

#[test]
fn sees_a_lost_lookup() {
    let run = Run::found(&[100]);
    let mut witness = Witness::new(&[100], 0);
    let seen = witness.observe(ASK, &Ok(Answer::quiet()), &run.words);
    let lookups = Lookups {
        accepted: 1,
        answered: 0,
    };
    assert_eq!(seen, Err(Violation::LookupsDoNotAddUp(lookups, 0)));
}

#[test]
fn sees_a_ticket_answered_twice() {
    let mut witness = Witness::new(&[100], 0);
    let answer = Ok(Answer::found(0, 7, 3, 0));
    assert_eq!(witness.take_in(ASK, &answer), Ok(()));
    assert_eq!(
        witness.take_in(ASK, &answer),
        Err(Violation::TicketTwice(3))
    );
}

#[test]
fn sees_a_message_that_cannot_be_delivered() {
    let rows = [inside(100, 0, 0), outside(200)];
    let words = record(0, &rows, &[message(JOINPOINT, 0, 1, 0)]);
    let seen = Witness::new(&[100, 200], 0).judge(&words);
    assert_eq!(seen, Err(Violation::DeliverRefused(0, 1, 10)));
}

#[test]
fn sees_a_record_that_does_not_read() {
    let words = record(1, &[inside(100, 0, 0)], &[message(LOOKUP, 0, 0, 7)]);
    let mut witness = Witness::new(&[100], 0);
    assert_eq!(
        witness.judge(&words[..1987]),
        Err(Violation::RecordRefused(1))
    );
    assert_eq!(
        witness.judge(&vec![0; words.len()]),
        Err(Violation::RecordRefused(2))
    );
}

/// Refusals leave everything as it is.
#[test]
fn refusals_are_not_counted() {
    let run = Run::found(&[100]);
    let mut witness = Witness::new(&[100], 0);
    for number in 1..=18 {
        assert_eq!(witness.observe(ASK, &Err(number), &run.words), Ok(()));
    }
    assert_eq!(witness.lookups(), Lookups::default());
}
