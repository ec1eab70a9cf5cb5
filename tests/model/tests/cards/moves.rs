//! Cards change hub at entered and gone, and at no other answer.

use ring_model::answer::{ENTERED, GONE, JOINED, JOIN_TURNED_AWAY, LEFT, QUIET};
use ring_model::Answer;

use crate::common::Run;
use crate::{cards, members, slice, Both, Four};

/// Hub 0 (100) alone in the ring, hubs 1 (200) and 2 (300) outside; cards of
/// machines on both sides of each identifier.
fn one_of_three() -> Both {
    let machines = [0, 99, 100, 101, 199, 200, 201, 300, 301, u32::MAX];
    let card = |machine| [machine, machine ^ 1, machine / 2, 0];
    let kept: Vec<Four> = machines.into_iter().map(card).collect();
    Both::new(&Run::found(&[100, 200, 300]).words, &slice(&[0], &kept))
}

/// Delivers what waits, oldest first; the answers with the hubs of the cards
/// after each.
fn drain(both: &mut Both) -> Vec<(Answer, Vec<u32>)> {
    let mut answers = Vec::new();
    while both.words[2] > 0 {
        let (from, to) = (both.words[453], both.words[454]);
        let answer = both.step(3, from, to).expect("deliver is accepted");
        answers.push((answer, hubs(both)));
    }
    answers
}

fn hubs(both: &Both) -> Vec<u32> {
    cards(&both.cards).iter().map(|card| card[3]).collect()
}

/// What each answer says, and the hubs of the ten cards after it.
fn check(answers: &[(Answer, Vec<u32>)], should: &[(Answer, [u32; 10])]) {
    let answers: Vec<(Answer, &[u32])> = answers.iter().map(|(a, hubs)| (*a, &hubs[..])).collect();
    let should: Vec<(Answer, &[u32])> = should.iter().map(|(a, hubs)| (*a, &hubs[..])).collect();
    assert_eq!(answers, should);
}

const ALONE: [u32; 10] = [0; 10];
const WITH_1: [u32; 10] = [0, 0, 0, 1, 1, 1, 0, 0, 0, 0];
const ALL: [u32; 10] = [0, 0, 0, 1, 1, 1, 2, 2, 0, 0];
const WITHOUT_0: [u32; 10] = [1, 1, 1, 1, 1, 1, 2, 2, 1, 1];

/// A join: the cards change hub with the entered answer, before the newcomer
/// knows.
#[test]
fn at_entered() {
    let mut both = one_of_three();
    assert_eq!(both.step(1, 1, 0), Ok(Answer::quiet()));
    assert_eq!(hubs(&both), ALONE);
    check(
        &drain(&mut both),
        &[
            (Answer::naming(ENTERED, 1), WITH_1),
            (Answer::naming(QUIET, 0), WITH_1),
            (Answer::naming(QUIET, 0), WITH_1),
            (Answer::naming(QUIET, 0), WITH_1),
            (Answer::naming(JOINED, 1), WITH_1),
        ],
    );
    assert_eq!(members(&both.cards), [0, 1]);
}

/// A leave: with the gone answer, before the leaver has left.
#[test]
fn at_gone() {
    let mut both = one_of_three();
    for hub in [1, 2] {
        assert_eq!(both.step(1, hub, 0), Ok(Answer::quiet()));
        drain(&mut both);
    }
    assert_eq!(hubs(&both), ALL);
    assert_eq!(both.step(2, 0, 0), Ok(Answer::quiet()));
    check(
        &drain(&mut both),
        &[
            (Answer::naming(QUIET, 0), ALL),
            (Answer::naming(QUIET, 0), ALL),
            (Answer::naming(GONE, 0), WITHOUT_0),
            (Answer::naming(QUIET, 0), WITHOUT_0),
            (Answer::naming(LEFT, 0), WITHOUT_0),
            (Answer::naming(QUIET, 0), WITHOUT_0),
        ],
    );
    assert_eq!(members(&both.cards), [1, 2]);
}

/// Machine, revision and price stay as they are, and so does the order.
#[test]
fn nothing_else_moves() {
    let mut both = one_of_three();
    let three = |both: &Both| -> Vec<[u32; 3]> {
        let cards = cards(&both.cards);
        cards.iter().map(|&[a, b, c, _]| [a, b, c]).collect()
    };
    let before = three(&both);
    for command in [[1, 1, 0], [1, 2, 1], [2, 1, 0], [1, 1, 2], [2, 0, 0]] {
        let [operation, x, y] = command;
        assert_eq!(both.step(operation, x, y), Ok(Answer::quiet()));
        drain(&mut both);
        assert_eq!(three(&both), before);
    }
    assert_eq!(members(&both.cards), [1, 2]);
}

/// Joins that are turned away, questions and refused commands move no card.
#[test]
fn other_answers_move_nothing() {
    let mut both = one_of_three();
    let before = both.cards.clone();
    for command in [[1, 1, 0], [0, 0, 250], [9, 0, 0], [3, 0, 2], [2, 0, 0]] {
        let [operation, x, y] = command;
        let _outcome = both.step(operation, x, y);
        assert_eq!(both.cards, before);
    }
    assert_eq!(both.step(3, 1, 0), Ok(Answer::naming(ENTERED, 1)));
    let entered = both.cards.clone();
    assert_eq!(members(&entered), [0, 1]);
    // Hub 2's JOIN meets a locked owner.
    assert_eq!(both.step(1, 2, 0), Ok(Answer::quiet()));
    assert_eq!(both.step(3, 2, 0), Ok(Answer::quiet()));
    let away = Answer::naming(JOIN_TURNED_AWAY, 2);
    assert_eq!(both.step(3, 0, 2), Ok(away));
    assert_eq!(both.cards, entered);
}

/// 64 hubs enter one after the other, and leave again but for the last.
#[test]
fn all_of_64() {
    let identifiers: Vec<u32> = (0..64).map(|hub| 1000 - 10 * hub).collect();
    let machines: Vec<u32> = (0..100).map(|i| 11 * i).collect();
    let kept: Vec<Four> = machines.iter().map(|&machine| [machine, 1, 1, 0]).collect();
    let words = Run::found_by(&identifiers, 0).words;
    let mut both = Both::new(&words, &slice(&[0], &kept));
    let mut inside = vec![0];
    let orders = (1..64)
        .map(|hub| (1, hub))
        .chain((0..63).map(|hub| (2, hub)));
    for (operation, hub) in orders {
        assert!(both.step(operation, hub, 0).is_ok());
        drain(&mut both);
        match operation {
            1 => inside.push(hub),
            _ => inside.retain(|&other| other != hub),
        }
        assert_eq!(members(&both.cards), inside);
        let owner = |&machine: &u32| crate::owner(&identifiers, &inside, machine);
        assert_eq!(
            hubs(&both),
            machines.iter().map(owner).collect::<Vec<u32>>()
        );
    }
    assert_eq!(inside, [63]);
}
