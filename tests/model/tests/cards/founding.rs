//! New slices, made with fresh rings of both forms.

use ring_model::cards::{fresh_by_cards, fresh_cards};
use ring_model::step::smallest;
use ring_model::{fresh, fresh_by, RECORD_WORDS};

use crate::{slice, Both, SLICE};

/// Memory with anything in it, and some words behind both slices.
fn anything() -> Both {
    Both {
        words: vec![0xAAAA_AAAA; RECORD_WORDS + 2],
        cards: vec![0xBBBB_BBBB; SLICE + 3],
    }
}

/// Identifiers in a row from 4294967290 on, past zero: the smallest is in the
/// middle of long lists.
fn row(n: u32) -> Vec<u32> {
    (0..n).map(|i| 4_294_967_290_u32.wrapping_add(i)).collect()
}

/// The founder's mark alone, whatever was there before.
#[test]
fn a_new_slice() {
    for n in 1..=64 {
        let identifiers = row(n);
        let (mut both, mut record) = (anything(), anything().words);
        assert_eq!(
            fresh_cards(&mut both.words, &mut both.cards, &identifiers),
            Ok(())
        );
        assert_eq!(fresh(&mut record, &identifiers), Ok(()));
        let founder = smallest(&identifiers);
        assert_eq!(both.words, record);
        assert_eq!(both.cards[..SLICE], slice(&[founder], &[]));
        assert_eq!(both.cards[SLICE..], [0xBBBB_BBBB; 3]);
    }
}

#[test]
fn a_new_slice_by_each_founder() {
    let identifiers = row(64);
    for founder in 0..64 {
        let (mut both, mut record) = (anything(), anything().words);
        let Both { words, cards } = &mut both;
        assert_eq!(fresh_by_cards(words, cards, &identifiers, founder), Ok(()));
        assert_eq!(fresh_by(&mut record, &identifiers, founder), Ok(()));
        assert_eq!(both.words, record);
        assert_eq!(both.cards[..SLICE], slice(&[founder], &[]));
        assert_eq!(both.cards[SLICE..], [0xBBBB_BBBB; 3]);
    }
}

/// A new slice beside its ring is accepted at once.
#[test]
fn a_new_slice_is_well_formed() {
    for n in [1, 2, 63, 64] {
        let mut both = anything();
        let Both { words, cards } = &mut both;
        assert_eq!(fresh_cards(words, cards, &row(n)), Ok(()));
        assert!(both.step(0, smallest(&row(n)), 9).is_ok());
        assert_eq!(both.offer(9, 9, 9), Ok(()));
    }
}

/// Lengths of both, identifiers and founder, and the number.
type Case = ((usize, usize), Vec<u32>, u32, u32);

fn refused((lengths, identifiers, founder, number): Case) {
    let mut both = anything();
    both.words.truncate(lengths.0);
    both.cards.truncate(lengths.1);
    let before = both.clone();
    let Both { words, cards } = &mut both;
    let by = fresh_by_cards(words, cards, &identifiers, founder);
    assert_eq!(by, Err(number), "{lengths:?} {identifiers:?} {founder}");
    if number != 18 {
        let smallest = fresh_cards(words, cards, &identifiers);
        assert_eq!(smallest, Err(number), "{lengths:?} {identifiers:?}");
    }
    assert_eq!(both, before);
}

/// Record's 1, cards' 1, 13, 14, 18: each before the next.
#[test]
fn questions_in_order() {
    let enough = (RECORD_WORDS, SLICE);
    let short = [
        (RECORD_WORDS - 1, SLICE),
        (0, SLICE),
        (RECORD_WORDS, SLICE - 1),
        (RECORD_WORDS, 0),
        (RECORD_WORDS - 1, SLICE - 1),
        (0, 0),
    ];
    for lengths in short {
        refused((lengths, vec![], 0, 1));
        refused((lengths, vec![7; 65], 65, 1));
        refused((lengths, vec![7, 7], 2, 1));
        refused((lengths, vec![7, 8], 2, 1));
        refused((lengths, vec![7, 8], 0, 1));
    }
    refused((enough, vec![], 0, 13));
    refused((enough, vec![7; 65], 65, 13));
    refused((enough, row(65), 64, 13));
    refused((enough, vec![7, 7], 2, 14));
    refused((enough, vec![7, 7], 0, 14));
    refused((enough, vec![7, 8], 2, 18));
    refused((enough, row(64), 64, 18));
    refused((enough, row(64), u32::MAX, 18));
}
