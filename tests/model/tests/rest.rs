//! What holds where no message waits (document 02, 2026-07), seen broken case
//! by case: or its silence in the random runs would mean nothing.

mod common;

use common::{inside, message, outside, record};
use ring_model::kinds::{LOOKUP, NEWSUCC};
use ring_model::ledger::{telling_keys, Violation};
use ring_model::record::{Row, State};
use ring_model::rest::{judge, judge_owner, judge_roll, Unrest};
use ring_model::{Membership, Witness};

/// Clockwise from 0 on: hubs 1, 3, 0 and 2; hub 4 lies between 3 and 0.
const NAMES: [u32; 5] = [300, 100, 400, 200, 250];

/// Hubs 0 to 3 are members.
fn four() -> Membership {
    Membership::of(&NAMES, &[0, 1, 2, 3])
}

/// A roll from hub 3, judged.
fn roll(nodes: &[u32]) -> Result<(), Unrest> {
    judge_roll(&four(), 3, Ok(nodes))
}

/// The ring of the members, and rows that are put in the place of theirs.
fn ring(others: &[(usize, Row)]) -> State {
    let mut rows = [
        inside(300, 3, 2),
        inside(100, 2, 3),
        inside(400, 0, 1),
        inside(200, 1, 0),
        outside(250),
    ];
    for &(node, row) in others {
        rows[node] = row;
    }
    State::read(&record(9, &rows, &[])).expect("the record reads")
}

fn judged(state: &State) -> Result<(), Unrest> {
    judge(state, &four(), &telling_keys(&NAMES))
}

#[test]
fn the_ring_of_the_members_is_at_rest() {
    assert_eq!(judged(&ring(&[])), Ok(()));
    assert_eq!(roll(&[3, 0, 2, 1]), Ok(()));
    for start in 0..4 {
        let clockwise = four().clockwise_from(start);
        assert_eq!(judge_roll(&four(), start, Ok(&clockwise)), Ok(()));
    }
    let alone = Membership::of(&NAMES, &[2]);
    assert_eq!(judge_roll(&alone, 2, Ok(&[2])), Ok(()));
}

/// Of the 4! orders of four members one is the roll.
#[test]
fn one_order_alone_is_clockwise() {
    let mut right = 0;
    for place in 0..256_u32 {
        let nodes = [place >> 6, place >> 4 & 3, place >> 2 & 3, place & 3];
        right += u32::from(roll(&nodes).is_ok());
    }
    assert_eq!(right, 1);
}

#[test]
fn wrong_rolls_are_seen() {
    let cases = [
        (&[][..], Unrest::BeginsElsewhere(3, None)),
        (&[0, 2, 1, 3], Unrest::BeginsElsewhere(3, Some(0))),
        (&[3, 1, 2, 0], Unrest::NotClockwise(3, 2)),
        (&[3, 2, 0, 1], Unrest::NotClockwise(3, 0)),
        (&[3, 0, 2], Unrest::LeftOut(3, 1)),
        (&[3], Unrest::LeftOut(3, 0)),
        (&[3, 0, 0, 2, 1], Unrest::Twice(3, 0)),
        (&[3, 0, 2, 1, 3], Unrest::Twice(3, 3)),
        (&[3, 4, 0, 2, 1], Unrest::NoMember(3, 4)),
        (&[3, 0, 2, 1, 255], Unrest::NoMember(3, 255)),
    ];
    for (nodes, seen) in cases {
        assert_eq!(roll(nodes), Err(seen), "{nodes:?}");
    }
    for number in [5, 16] {
        let seen = judge_roll(&four(), 3, Err(number));
        assert_eq!(seen, Err(Unrest::RollRefused(3, number)));
    }
}

/// Hub 4 left, and its pred still points at it: the roll has a hub that is no
/// member, or leads outside.
#[test]
fn a_leaver_still_pointed_at_is_seen() {
    let pointing = (3, inside(200, 1, 4));
    let sent_on = ring(&[pointing, (4, inside(250, 3, 0))]);
    assert_eq!(judged(&sent_on), Err(Unrest::NoMember(0, 4)));
    let outside = ring(&[pointing]);
    assert_eq!(judged(&outside), Err(Unrest::RollRefused(0, 16)));
}

#[test]
fn a_ring_that_goes_anticlockwise_is_seen() {
    let turned = ring(&[
        (0, inside(300, 2, 3)),
        (1, inside(100, 3, 2)),
        (2, inside(400, 1, 0)),
        (3, inside(200, 0, 1)),
    ]);
    assert_eq!(judged(&turned), Err(Unrest::NotClockwise(0, 1)));
}

/// Hub 3 points past hub 0: rolls from the others lack it, its own leads into
/// a circle without it.
#[test]
fn a_member_left_out_is_seen() {
    let past = ring(&[(3, inside(200, 1, 2))]);
    assert_eq!(judged(&past), Err(Unrest::RollRefused(0, 16)));
    let alone = ring(&[(3, inside(200, 1, 2)), (0, inside(300, 3, 0))]);
    assert_eq!(judged(&alone), Err(Unrest::LeftOut(0, 1)));
    let gone = ring(&[(3, inside(200, 1, 2)), (0, outside(300))]);
    assert_eq!(judged(&gone), Err(Unrest::RollRefused(0, 5)));
}

/// The rolls go by succ, the owners by pred: hub 0 with another pred has
/// right rolls and holds too much or too little.
#[test]
fn another_owner_is_seen() {
    let too_much = ring(&[(0, inside(300, 1, 2))]);
    let seen = Unrest::OwnerIsAnother(101, Ok(0), Some(3));
    assert_eq!(judged(&too_much), Err(seen));
    let too_little = ring(&[(0, inside(300, 4, 2))]);
    let seen = Unrest::OwnerIsAnother(201, Err(15), Some(0));
    assert_eq!(judged(&too_little), Err(seen));
}

/// No owner is right where the set is empty: so 15 is never passed.
#[test]
fn wrong_owners_are_seen() {
    for (key, owner) in [
        (0, 1),
        (100, 1),
        (101, 3),
        (301, 2),
        (401, 1),
        (u32::MAX, 1),
    ] {
        assert_eq!(judge_owner(&four(), key, Ok(owner)), Ok(()));
        for answer in [Ok(owner ^ 1), Ok(4), Ok(255), Err(15), Err(2)] {
            let seen = Unrest::OwnerIsAnother(key, answer, Some(owner));
            assert_eq!(judge_owner(&four(), key, answer), Err(seen));
        }
    }
    let nobody = Membership::of(&NAMES, &[]);
    let seen = Unrest::OwnerIsAnother(7, Err(15), None);
    assert_eq!(judge_owner(&nobody, 7, Err(15)), Err(seen));
}

/// A member that the ledger has too few or too many is seen, too.
#[test]
fn another_ledger_is_seen() {
    let keys = telling_keys(&NAMES);
    let fewer = Membership::of(&NAMES, &[0, 1, 2]);
    let seen = judge(&ring(&[]), &fewer, &keys);
    assert_eq!(seen, Err(Unrest::NoMember(0, 3)));
    let more = Membership::of(&NAMES, &[0, 1, 2, 3, 4]);
    let seen = judge(&ring(&[]), &more, &keys);
    assert_eq!(seen, Err(Unrest::LeftOut(0, 4)));
}

/// Nothing is claimed while a message waits, however right all is.
#[test]
fn a_waiting_message_is_no_rest() {
    let mut state = ring(&[]);
    state.messages.push(message(LOOKUP, 0, 1, 7));
    assert_eq!(judged(&state), Err(Unrest::MessagesWait(1)));
}

/// The witness judges each record without a message, and no other: hub 0 holds
/// what it should, and points at hub 1, which is outside.
#[test]
fn the_witness_sees_it() {
    let rows = [inside(100, 0, 1), outside(200)];
    let mut witness = Witness::new(&[100, 200], 0);
    let seen = witness.judge(&record(0, &rows, &[]));
    let unrest = Unrest::RollRefused(0, 16);
    assert_eq!(seen, Err(Violation::NotAtRest(unrest)));
    let waiting = record(0, &rows, &[message(NEWSUCC, 0, 0, 0)]);
    assert_eq!(witness.judge(&waiting), Ok(()));
}
