//! A gone answer on slices that no ring made: of the only member, of one of
//! several, and of a hub that is no member.

use ring_model::answer::{ENTERED, GONE};
use ring_model::cards::{read, step_typed};
use ring_model::kinds::{JOIN, LEAVEPOINT};
use ring_model::record::{Row, JOINING};
use ring_model::{step, Answer};

use crate::common::{inside, message, outside, record};
use crate::{cards, many, members, owner, slice, Both, MOST, THREE};

/// Three hubs inside; hub 1's LEAVEPOINT waits at hub 2.
fn leaving() -> Vec<u32> {
    let mut rows = [inside(100, 2, 1), inside(200, 0, 2), inside(300, 1, 0)];
    rows[2].lock = true;
    record(0, &rows, &[message(LEAVEPOINT, 1, 2, 0)])
}

/// The delivery with these members and so many cards.
fn gone(members: &[u32], count: usize) -> (Result<Answer, u32>, Both) {
    let cards = slice(members, &many(&THREE, members, count));
    let mut both = Both::new(&leaving(), &cards);
    (both.step(3, 1, 2), both)
}

/// Without cards the step is accepted; with them nothing at all changes.
#[test]
fn the_only_member_stays() {
    let answer = Answer::naming(GONE, 1);
    assert_eq!(step(&mut leaving(), 3, 1, 2), Ok(answer));
    for count in [0, 1, 2, MOST] {
        let (outcome, both) = gone(&[1], count);
        assert_eq!(outcome, Err(2));
        assert_eq!(both.words, leaving());
        assert_eq!(both.cards, slice(&[1], &many(&THREE, &[1], count)));
    }
}

/// The same on the typed forms.
#[test]
fn typed_forms_stay() {
    let cards = slice(&[1], &many(&THREE, &[1], 3));
    let (mut state, mut typed) = read(&leaving(), &cards).expect("both read");
    let before = (state.clone(), typed.clone());
    assert_eq!(step_typed(&mut state, &mut typed, 3, 1, 2), Err(2));
    assert_eq!(step_typed(&mut state, &mut typed, 4, 1, 2), Err(3));
    assert_eq!(typed.offer(7, 4, 100), Err(22));
    assert_eq!(typed.offer(7, 5, 101), Err(23));
    assert_eq!((state, typed), before);
}

/// With another member beside it, it goes, and the cards go to the others.
#[test]
fn another_member_lets_it_go() {
    for others in [&[0_u32][..], &[2], &[0, 2]] {
        for count in [0, 1, MOST] {
            let with: Vec<u32> = others.iter().copied().chain([1]).collect();
            let (outcome, both) = gone(&with, count);
            assert_eq!(outcome, Ok(Answer::naming(GONE, 1)));
            assert_eq!(members(&both.cards), others);
            for [machine, revision, price, hub] in cards(&both.cards) {
                assert_eq!(hub, owner(&THREE, others, machine));
                assert_eq!([revision, price], [5, 100]);
            }
        }
    }
}

/// Where the hub that goes has no mark, the cards stay as they are, be there
/// one member or more; the record moves on.
#[test]
fn no_member_goes() {
    let mut alone = leaving();
    assert!(step(&mut alone, 3, 1, 2).is_ok());
    for others in [&[0_u32][..], &[2], &[0, 2]] {
        for count in [0, 1, MOST] {
            let (outcome, both) = gone(others, count);
            assert_eq!(outcome, Ok(Answer::naming(GONE, 1)));
            assert_eq!(both.words, alone);
            assert_eq!(both.cards, slice(others, &many(&THREE, others, count)));
        }
    }
}

/// The only hub of a ring, with a LEAVEPOINT of its own.
#[test]
fn the_only_hub() {
    let mut row = inside(100, 0, 0);
    row.lock = true;
    let words = record(0, &[row], &[message(LEAVEPOINT, 0, 0, 0)]);
    let cards = slice(&[0], &[[7, 1, 1, 0]]);
    assert_eq!(Both::new(&words, &cards).step(3, 0, 0), Err(2));
}

/// A hub enters that is a member already: no word changes.
#[test]
fn a_member_enters() {
    let joining = Row {
        state: JOINING,
        lock: true,
        ..outside(200)
    };
    let rows = [inside(100, 0, 0), joining, outside(300)];
    let words = record(0, &rows, &[message(JOIN, 1, 0, 1)]);
    for all in [&[1_u32][..], &[0, 1], &[0, 1, 2], &[1, 2]] {
        let cards = slice(all, &many(&THREE, all, 60));
        let mut both = Both::new(&words, &cards);
        assert_eq!(both.step(3, 1, 0), Ok(Answer::naming(ENTERED, 1)));
        assert_eq!(both.cards, cards);
    }
}
