//! Offers: new machines, higher, equal and lower revisions, and a full slice.

use crate::common::Run;
use crate::{cards, many, owner, slice, three, Both, Four, MOST, SLICE, THREE};

const ALL: [u32; 3] = [0, 1, 2];

/// The three hubs with these cards.
fn holding(kept: &[Four]) -> Both {
    Both::new(&three(), &slice(&ALL, kept))
}

const KEPT: [Four; 3] = [[50, 5, 70, 0], [150, 5, 71, 1], [250, 5, 72, 2]];

/// A new one goes last; its hub is filled in.
#[test]
fn new_machines() {
    let mut both = holding(&[]);
    let mut should: Vec<Four> = Vec::new();
    for (machine, hub) in [(150, 1), (100, 0), (101, 1), (301, 0), (0, 0), (300, 2)] {
        assert_eq!(both.offer(machine, 9, 8), Ok(()));
        should.push([machine, 9, 8, hub]);
        assert_eq!(both.cards, slice(&ALL, &should));
    }
}

/// A higher revision replaces the kept card in its place, with any price.
#[test]
fn higher_revisions() {
    for (place, card) in KEPT.into_iter().enumerate() {
        for (revision, price) in [(6, 0), (6, 70), (6, 71), (6, 72), (u32::MAX, u32::MAX)] {
            let mut both = holding(&KEPT);
            assert_eq!(both.offer(card[0], revision, price), Ok(()));
            let mut should = KEPT;
            should[place] = [card[0], revision, price, card[3]];
            assert_eq!(both.cards, slice(&ALL, &should));
        }
    }
}

/// The very card that is kept, offered again.
#[test]
fn equal_cards() {
    for [machine, revision, price, _] in KEPT {
        let mut both = holding(&KEPT);
        assert_eq!(both.offer(machine, revision, price), Ok(()));
        assert_eq!(both.cards, slice(&ALL, &KEPT));
    }
}

/// An equal revision with another price is 23, a lower one 22, whatever its
/// price.
#[test]
fn refused_revisions() {
    for [machine, _, price, _] in KEPT {
        let mut both = holding(&KEPT);
        for other in [price - 1, price + 1, 0, u32::MAX] {
            assert_eq!(both.offer(machine, 5, other), Err(23));
        }
        for revision in [0, 1, 4] {
            for price in [price, price + 1, 0] {
                assert_eq!(both.offer(machine, revision, price), Err(22));
            }
        }
        assert_eq!(both.cards, slice(&ALL, &KEPT));
    }
}

/// Revisions and prices are numbers without a sign, up to 4294967295.
#[test]
fn large_numbers() {
    let high = 1 << 31;
    let mut both = holding(&[[50, high - 1, high, 0]]);
    assert_eq!(both.offer(50, high, 0), Ok(()));
    assert_eq!(both.offer(50, high - 1, high), Err(22));
    assert_eq!(both.offer(50, high, high), Err(23));
    assert_eq!(both.offer(50, u32::MAX, 7), Ok(()));
    assert_eq!(both.offer(50, u32::MAX, 6), Err(23));
    assert_eq!(both.offer(50, u32::MAX, 7), Ok(()));
    assert_eq!(both.offer(50, 0, 7), Err(22));
    assert_eq!(cards(&both.cards), [[50, u32::MAX, 7, 0]]);
}

/// Machines, revisions and prices 0 and 4294967295.
#[test]
fn at_both_ends() {
    let ends = [0, u32::MAX];
    for machine in ends {
        for price in ends {
            let mut both = holding(&[]);
            assert_eq!(both.offer(machine, 0, price), Ok(()));
            assert_eq!(both.offer(machine, 0, price), Ok(()));
            assert_eq!(both.offer(machine, 0, price ^ 1), Err(23));
            assert_eq!(cards(&both.cards), [[machine, 0, price, 0]]);
            assert_eq!(both.offer(machine, u32::MAX, price), Ok(()));
            assert_eq!(both.offer(machine, u32::MAX - 1, price), Err(22));
            assert_eq!(cards(&both.cards), [[machine, u32::MAX, price, 0]]);
        }
    }
}

/// 511 cards take one more, 512 none; kept ones are still replaced.
#[test]
fn full_slices() {
    let mut kept = many(&THREE, &ALL, MOST - 1);
    let mut both = holding(&kept);
    assert_eq!(both.offer(3, 1, 1), Ok(()));
    kept.push([3, 1, 1, 0]);
    assert_eq!(both.cards, slice(&ALL, &kept));
    for machine in [0, 1, 4, 8, u32::MAX] {
        assert_eq!(both.offer(machine, 9, 9), Err(24));
    }
    assert_eq!(both.offer(7, 4, 100), Err(22));
    assert_eq!(both.offer(7, 5, 101), Err(23));
    assert_eq!(both.offer(7, 5, 100), Ok(()));
    assert_eq!(both.cards, slice(&ALL, &kept));
    for place in [0, 1, 300, MOST - 2, MOST - 1] {
        kept[place][1] = 600;
        kept[place][2] = place as u32;
        assert_eq!(both.offer(kept[place][0], 600, place as u32), Ok(()));
        assert_eq!(both.cards, slice(&ALL, &kept));
    }
}

/// From none to 512, one by one.
#[test]
fn every_count() {
    let mut both = holding(&[]);
    let full = many(&THREE, &ALL, MOST);
    for (count, &[machine, revision, price, _]) in full.iter().enumerate() {
        assert_eq!(both.cards[0], count as u32);
        assert_eq!(both.offer(machine, revision, price), Ok(()));
    }
    assert_eq!(both.cards, slice(&ALL, &full));
    assert_eq!(both.offer(1, 1, 1), Err(24));
}

/// The hub is the owner among the slice's members, whatever the record says of
/// who is inside.
#[test]
fn among_the_members() {
    for all in [&[0_u32][..], &[1], &[2], &[0, 1], &[0, 2], &[1, 2]] {
        for machine in [0, 100, 101, 200, 201, 300, 301, u32::MAX] {
            let mut both = Both::new(&three(), &slice(all, &[]));
            assert_eq!(both.offer(machine, 1, 1), Ok(()));
            let hub = owner(&THREE, all, machine);
            assert_eq!(both.cards, slice(all, &[[machine, 1, 1, hub]]));
        }
    }
}

/// Words behind record and cards are neither read nor written.
#[test]
fn words_behind() {
    let mut both = holding(&KEPT);
    both.words.extend([8, 9]);
    both.cards.extend([u32::MAX; 5]);
    assert_eq!(both.offer(99, 1, 1), Ok(()));
    assert!(both.step(2, 1, 0).is_ok());
    assert_eq!(both.offer(99, 2, 1), Ok(()));
    assert_eq!(both.words[both.words.len() - 2..], [8, 9]);
    assert_eq!(both.cards[SLICE..], [u32::MAX; 5]);
    assert_eq!(both.cards[0], 4);
}

/// Beside a record in which messages wait, and hubs join and leave.
#[test]
fn while_messages_wait() {
    let mut run = Run::settled(&THREE);
    assert!(run.leave(1).is_ok());
    assert!(run.ask(0, 250).is_ok());
    let mut both = Both::new(&run.words, &slice(&ALL, &KEPT));
    assert_eq!(both.offer(151, 1, 1), Ok(()));
    assert_eq!(both.words, run.words);
    assert_eq!(cards(&both.cards)[3], [151, 1, 1, 1]);
}
